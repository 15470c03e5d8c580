// Verdict: serializable
// Blocks: look
// Options: --coverage
// Two threads only read, each while the other does, and the compiler counts how often they come by.
#include "steps.h"
#include <pthread.h>
static int shared = 3;
static int half(int of) { return of % 2 ? of / 2 : of; }
static int look(int first) {
    int seen = half(shared);
    if (first) {
        make(0);
        await(1);
    }
    return seen + half(shared);
}
static void *other(void *unused) {
    await(0);
    look(0);
    make(1);
    return unused;
}
int main(void) {
    pthread_t thread;
    pthread_create(&thread, NULL, other, NULL);
    int sum = look(1);
    pthread_join(thread, NULL);
    return sum != 2;
}
