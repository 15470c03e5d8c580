// Verdict: violation push
// Blocks: push
// Options: -mcx16 -latomic
// A pointer and its count are swapped as sixteen bytes, after another thread has swapped them twice.
#include "steps.h"
#include <pthread.h>
#include <stdatomic.h>
struct Top {
    _Alignas(16) long node, count;
};
static _Atomic struct Top top;
static void push(long node) {
    struct Top before = atomic_load(&top);
    if (node == 1) {
        make(0);
        await(1);
    }
    struct Top after = {node, before.count + 1};
    atomic_store(&top, after);
}
static void *other(void *unused) {
    await(0);
    push(2);
    push(3);
    make(1);
    return unused;
}
int main(void) {
    pthread_t thread;
    pthread_create(&thread, NULL, other, NULL);
    push(1);
    pthread_join(thread, NULL);
    struct Top last = atomic_load(&top);
    return last.count != 1;
}
