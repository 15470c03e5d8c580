// Verdict: violation raise
// Blocks: raise,change
// A reader gives its shared lock back and takes it exclusively: another writer comes between.
#include "steps.h"
#include <mutex>
#include <shared_mutex>
#include <thread>
static std::shared_mutex m;
static int a;
static void change() {
    std::unique_lock l(m);
    a++;
}
static void raise() {
    int x;
    {
        std::shared_lock l(m);
        x = a;
    }
    make(0);
    await(1);
    std::unique_lock l(m);
    a = x + 1;
}
int main() {
    std::thread o([] {
        await(0);
        change();
        make(1);
    });
    raise();
    o.join();
}
