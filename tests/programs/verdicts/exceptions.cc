// Verdict: serializable
// Blocks: outer,inner,other
// An exception leaves two blocks, with the locks; what the thread does behind that is in none.
#include "steps.h"
#include <mutex>
#include <stdexcept>
#include <thread>
static std::mutex m;
static int x;
static void inner() {
    std::lock_guard l(m);
    x++;
    throw std::runtime_error("no");
}
static void outer() {
    int before;
    {
        std::lock_guard l(m);
        before = x;
    }
    if (before >= 0) inner();
}
static void other() {
    std::lock_guard l(m);
    x++;
}
int main() {
    std::thread o([] {
        await(0);
        other();
        make(1);
    });
    try {
        outer();
    } catch (const std::exception &) {}
    make(0);
    await(1);
    int v = x;
    o.join();
    return v != 2;
}
