// Verdict: violation look
// Blocks: look
// A sequence lock: a writer comes between two reads of the block, which reads all again.
#include "steps.h"
#include <pthread.h>
#include <stdatomic.h>
static atomic_uint turn;
static int first, second;
static void put(int value) {
    atomic_fetch_add(&turn, 1);
    first = value;
    second = value;
    atomic_fetch_add(&turn, 1);
}
static int look(void) {
    for (int round = 0;; round++) {
        unsigned before = atomic_load(&turn);
        int seen = first;
        if (!round) {
            make(0);
            await(1);
        }
        int more = second;
        if (before % 2 == 0 && atomic_load(&turn) == before) return seen + more;
    }
}
static void *other(void *unused) {
    await(0);
    put(1);
    make(1);
    return unused;
}
int main(void) {
    pthread_t thread;
    pthread_create(&thread, NULL, other, NULL);
    int seen = look();
    pthread_join(thread, NULL);
    return seen != 2;
}
