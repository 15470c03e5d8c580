// Verdict: serializable
// Blocks: leaves,goes,other
// A context that goes back to a function leaves two blocks.
#include "steps.h"
#include <pthread.h>
#include <ucontext.h>
static ucontext_t back;
static volatile int x, gone;
static void goes(void) {
    x++;
    setcontext(&back);
}
static void leaves(void) {
    x++;
    goes();
}
static void other(void) {
    x++;
}
static void *run(void *u) {
    await(0);
    other();
    make(1);
    return u;
}
static void whole(void) {
    getcontext(&back);
    if (!gone++) leaves();
    make(0);
    await(1);
    x++;
}
int main(void) {
    pthread_t t;
    pthread_create(&t, 0, run, 0);
    whole();
    pthread_join(t, 0);
    return 0;
}
