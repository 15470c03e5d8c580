// Verdict: serializable
// Blocks: loads
// A block makes two static variables, and another thread makes a third one in between. The library locks a mutex of its own for each.
#include "steps.h"
#include <array>
#include <thread>

static int made(int n) {
    return n * 2;
}

template <int N> static const std::array<int, 4> &table() {
    static const std::array<int, 4> numbers = {made(N), made(N + 1), 0, 0};
    return numbers;
}

static int loads() {
    int first = table<2>()[1];
    make(0);
    await(1);
    return first + table<3>()[1];
}

int main() {
    int other_sum = 0;
    std::thread other([&] {
        await(0);
        other_sum = table<5>()[1];
        make(1);
    });
    int sum = loads();
    other.join();
    return sum + other_sum != 26;
}
