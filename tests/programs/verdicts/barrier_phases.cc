// Verdict: serializable
// Blocks: phase
// Between barriers each thread writes its own cell, and then reads the other's: no block has a barrier in it.
#include <barrier>
#include <thread>
static std::barrier<> b(2);
static int cell[2], sum[2];
static void phase(int me, int n) {
    if (n == 0)
        cell[me] = me + 1;
    else
        sum[me] = cell[0] + cell[1];
}
static void run(int me) {
    phase(me, 0);
    b.arrive_and_wait();
    phase(me, 1);
    b.arrive_and_wait();
    phase(me, 0);
}
int main() {
    std::thread o(run, 1);
    run(0);
    o.join();
    return sum[0] != 3 || sum[1] != 3;
}
