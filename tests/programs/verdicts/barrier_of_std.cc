// Verdict: serializable
// Blocks: fill,check
// Two threads fill their halves, and check the other half in the next phase, after a std::barrier that isn't in a block.
#include <barrier>
#include <thread>
static int halves[2];
static std::barrier phase(2);
static void fill(int who) { halves[who] = who + 1; }
static int check(int who) { return halves[1 - who]; }
static void run(int who) {
    fill(who);
    phase.arrive_and_wait();
    if (check(who) != 2 - who) std::terminate();
}
int main() {
    std::thread other(run, 1);
    run(0);
    other.join();
}
