// Verdict: violation work
// Blocks: work,other
// A handler's events are those of the block within which it runs: it reads before another thread writes, and the block behind that.
#include "steps.h"
#include <pthread.h>
#include <signal.h>
static volatile int x, seen;
static void handle(int n) {
    seen = x + n;
}
static void work(void) {
    raise(SIGUSR1);
    make(0);
    await(1);
    seen = x;
}
static void other(void) {
    x++;
}
static void *run(void *u) {
    await(0);
    other();
    make(1);
    return u;
}
int main(void) {
    pthread_t t;
    signal(SIGUSR1, handle);
    pthread_create(&t, 0, run, 0);
    work();
    pthread_join(t, 0);
    return 0;
}
