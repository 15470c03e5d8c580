// Verdict: serializable
// Blocks: write,read
// The first exception of the program is thrown in one block, while the other one is under way, and throws later: the unwinder makes its
// tables only once, which orders nobody.
#include "steps.h"
#include <thread>
static int number;
static void write() {
    number = 1;
    make(0);
    await(1);
    try {
        throw 1;
    } catch (int) {
    }
}
static int read() {
    try {
        throw number;
    } catch (int seen) {
        return seen;
    }
}
int main() {
    std::thread other([] {
        await(0);
        read();
        make(1);
    });
    write();
    other.join();
}
