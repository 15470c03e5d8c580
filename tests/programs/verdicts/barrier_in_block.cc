// Verdict: violation run
// Blocks: run
// A block over a barrier reads what the other one has written before it, and writes what that reads behind it.
#include <barrier>
#include <thread>
static std::barrier<> b(2);
static int cell[2];
static void run(int me) {
    cell[me] = me + 1;
    b.arrive_and_wait();
    int x = cell[1 - me];
    b.arrive_and_wait();
    cell[me] = x;
}
static void start(int me) {
    run(me);
}
int main() {
    std::thread o([] { start(1); });
    start(0);
    o.join();
}
