// Verdict: violation audit
// Blocks: transfer,audit
// A transfer holds both locks; an audit takes them one after the other.
#include "steps.h"
#include <mutex>
#include <thread>
static std::mutex a, b;
static int x = 5, y = 5;
static void transfer() {
    std::scoped_lock l(a, b);
    x--;
    y++;
}
static int audit() {
    int s;
    {
        std::lock_guard l(a);
        s = x;
    }
    make(0);
    await(1);
    std::lock_guard l(b);
    return s + y;
}
int main() {
    std::thread o([] {
        await(0);
        transfer();
        make(1);
    });
    int s = audit();
    o.join();
    return s != 11;
}
