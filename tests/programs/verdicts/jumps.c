// Verdict: serializable
// Blocks: leaves,goes,other
// A jump out of two blocks of small frames. Behind it the thread calls a function of a large frame, which is in no block.
#include "steps.h"
#include <pthread.h>
#include <setjmp.h>
#include <string.h>
static jmp_buf back;
static volatile int x;
static void goes(void) {
    x++;
    longjmp(back, 1);
}
static void leaves(void) {
    x++;
    goes();
}
static void large(void) {
    volatile char room[2000];
    room[0] = 0;
    room[1999] = (char)x;
}
static void other(void) {
    x++;
}
static void *run(void *u) {
    await(0);
    other();
    make(1);
    return u;
}
static void whole(void) {
    if (!setjmp(back)) leaves();
    make(0);
    await(1);
    large();
}
int main(void) {
    pthread_t t;
    pthread_create(&t, 0, run, 0);
    whole();
    pthread_join(t, 0);
    return 0;
}
