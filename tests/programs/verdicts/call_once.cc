// Verdict: serializable
// Blocks: get
// Whoever is first initializes; the other finds it done.
#include "steps.h"
#include <mutex>
#include <thread>
static std::once_flag f;
static int value;
static int get() {
    std::call_once(f, [] { value = 7; });
    return value;
}
int main() {
    std::thread o([] {
        await(0);
        get();
    });
    get();
    make(0);
    o.join();
    get();
}
