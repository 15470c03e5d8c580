// Verdict: violation get
// Blocks: get
// Another thread makes the object between the first look and the lock: the two looks see different things.
#include "steps.h"
#include <atomic>
#include <mutex>
#include <thread>
static std::mutex m;
static std::atomic<int *> p;
static int *get(bool first) {
    int *q = p.load(std::memory_order_acquire);
    if (q) return q;
    if (first) {
        make(0);
        await(1);
    }
    std::lock_guard l(m);
    q = p.load(std::memory_order_relaxed);
    if (!q) p.store(q = new int(1), std::memory_order_release);
    return q;
}
int main() {
    std::thread o([] {
        await(0);
        get(false);
        make(1);
    });
    int *q = get(true);
    o.join();
    return *q != 1;
}
