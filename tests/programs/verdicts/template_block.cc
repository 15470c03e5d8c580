// Verdict: violation raise<long>
// Blocks: raise<int>,raise<long>
// One template makes two blocks: the one for int isn't disturbed, the one for long is.
#include "steps.h"
#include <thread>
template <class Number> static Number value = 1;
template <class Number> __attribute__((noinline)) static void raise(bool wait) {
    Number now = value<Number>;
    if (wait) {
        make(0);
        await(1);
    }
    value<Number> = now + 1;
}
int main() {
    std::thread other([] {
        await(0);
        raise<long>(false);
        make(1);
    });
    raise<int>(false);
    raise<long>(true);
    other.join();
    return value<int> != 2 || value<long> != 2;
}
