// Verdict: serializable
// Blocks: outer,inner
// A recursive mutex, taken twice; the inner block gives it back once only.
#include <mutex>
#include <thread>
static std::recursive_mutex m;
static int x;
static void inner() {
    std::lock_guard l(m);
    x++;
}
static void outer() {
    std::lock_guard l(m);
    int v = x;
    inner();
    inner();
    if (x != v + 2) _Exit(1);
}
int main() {
    std::thread o([] {
        for (int i = 0; i < 100; i++) outer();
    });
    for (int i = 0; i < 100; i++) outer();
    o.join();
    return x != 400;
}
