// Verdict: violation add
// Blocks: add
// A compare-exchange that fails because another one came between, and a second try: the block reads before and behind that.
#include "steps.h"
#include <atomic>
#include <thread>
static std::atomic<int> x;
static bool waits = true;
static void add(bool first) {
    int v = x.load();
    if (first) {
        make(0);
        await(1);
    }
    while (!x.compare_exchange_strong(v, v + 1)) {}
}
int main() {
    std::thread o([] {
        await(0);
        add(false);
        make(1);
    });
    add(true);
    o.join();
    return x != 2 || !waits;
}
