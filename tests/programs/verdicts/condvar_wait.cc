// Verdict: violation take
// Verdict with AERODROME_SPLIT=waits: serializable
// Blocks: take,put
// A consumer waits: others run meanwhile. Split where it waits, each half is atomic.
#include "steps.h"
#include <condition_variable>
#include <mutex>
#include <thread>
static std::mutex m;
static std::condition_variable c;
static int items;
static void put() {
    std::lock_guard l(m);
    items++;
    c.notify_one();
}
static void take() {
    std::unique_lock l(m);
    make(0);
    c.wait(l, [] { return items > 0; });
    items--;
}
int main() {
    std::thread o([] {
        await(0);
        put();
    });
    take();
    o.join();
}
