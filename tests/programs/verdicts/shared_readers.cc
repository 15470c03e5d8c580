// Verdict: serializable
// Blocks: look,change
// Two readers hold a shared_mutex at the same time; a writer comes before and after.
#include "steps.h"
#include <mutex>
#include <shared_mutex>
#include <thread>
static std::shared_mutex m;
static int a, b;
static void look(int mine, int next) {
    std::shared_lock l(m);
    int x = a;
    if (next >= 0) {
        make(next);
        await(mine);
    }
    x += b;
    if (x % 2) _exit(1);
}
static void change() {
    std::unique_lock l(m);
    a++;
    b++;
}
int main() {
    change();
    std::thread o([] {
        await(0);
        look(0, -1);
        make(1);
    });
    look(1, 0);
    o.join();
    change();
}
