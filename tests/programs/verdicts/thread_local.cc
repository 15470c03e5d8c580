// Verdict: serializable
// Blocks: use
// Each thread has its own; threads that come later have it where those before had theirs.
#include "steps.h"
#include <thread>
static thread_local int mine;
static thread_local int *address;
static int *seen[2];
static void use(int n) {
    mine++;
    address = &mine;
    if (n == 2) {
        make(0);
        await(1);
    }
    mine++;
}
int main() {
    std::thread keeps([] { use(2); });
    await(0);
    for (int i = 0; i < 2; i++) {
        std::thread t([i] {
            use(0);
            seen[i] = address;
        });
        t.join();
    }
    make(1);
    keeps.join();
    return mine != 0;
}
