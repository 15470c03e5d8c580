// Verdict: serializable
// Blocks: leaves,goes,other
// The jump that the compiler makes itself leaves two blocks, once for a function of a large frame, and once for a lock. Behind it the
// thread is in no block.
#include "steps.h"
#include <pthread.h>
static void *back[5];
static volatile int x;
static pthread_mutex_t m = PTHREAD_MUTEX_INITIALIZER;
static void goes(void) {
    x++;
    __builtin_longjmp(back, 1);
}
static void leaves(void) {
    x++;
    goes();
}
static void large(void) {
    volatile char room[2000];
    room[0] = 0;
    room[1999] = (char)x;
}
static void other(void) {
    pthread_mutex_lock(&m);
    x++;
    pthread_mutex_unlock(&m);
}
static void *run(void *u) {
    await(0);
    other();
    make(1);
    await(0);
    other();
    make(1);
    return u;
}
static void calls(void) {
    if (!__builtin_setjmp(back)) leaves();
    make(0);
    await(1);
    large();
}
static void locks(void) {
    if (!__builtin_setjmp(back)) leaves();
    make(0);
    await(1);
    pthread_mutex_lock(&m);
    pthread_mutex_unlock(&m);
}
int main(void) {
    pthread_t t;
    pthread_create(&t, 0, run, 0);
    calls();
    locks();
    pthread_join(t, 0);
    return 0;
}
