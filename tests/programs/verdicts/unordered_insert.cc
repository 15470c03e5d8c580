// Verdict: violation add
// Blocks: add
// Two threads look for a key in a hash table, and both insert after the other one has looked: the links are in the headers.
#include "steps.h"
#include <thread>
#include <unordered_map>
static std::unordered_map<int, int> numbers;
static void add(bool first) {
    if (numbers.count(1)) return;
    if (first) {
        make(0);
        await(1);
    }
    numbers[first] = 1;
}
int main() {
    std::thread other([] {
        await(0);
        add(false);
        make(1);
    });
    add(true);
    other.join();
}
