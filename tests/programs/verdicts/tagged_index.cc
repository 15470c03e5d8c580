// Verdict: violation pop<Head>
// Blocks: pop<Head>,pop<Wide>
// Options: -latomic
// The head of a stack is an index and a tag in one atomic structure, which another thread swaps between the look and the swap; a wider one,
// of twelve bytes, is swapped alone.
#include "steps.h"
#include <atomic>
#include <thread>
struct Head {
    int index, tag;
};
struct Wide {
    int index, tag, size;
};
static std::atomic<Head> head{Head{2, 0}};
static std::atomic<Wide> wide{Wide{2, 0, 2}};
template <class T> static int pop(std::atomic<T> &from, bool waits) {
    T seen = from.load(), next = seen;
    if (waits) {
        make(0);
        await(1);
    }
    do {
        next = seen;
        next.index--, next.tag++;
    } while (!from.compare_exchange_weak(seen, next));
    return seen.index;
}
int main() {
    std::thread other([] {
        await(0);
        head.store(Head{5, 9});
        make(1);
    });
    int popped = pop<Head>(head, true);
    other.join();
    int again = pop<Wide>(wide, false), before = wide.exchange(Wide{7, 7, 7}).index;
    return popped != 5 || head.load().tag != 10 || again != 2 || before != 1 || wide.load().size != 7;
}
