// Verdict: serializable
// Blocks: pun,other
// A union of several sizes, by one thread; the union beside it by another.
#include "steps.h"
#include <pthread.h>
typedef union {
    long whole;
    int half[2];
    char byte[8];
    double real;
} U;
static volatile U pair[2];
static void pun(void) {
    pair[0].whole = 1;
    pair[0].byte[3] = 2;
    make(0);
    await(1);
    pair[0].half[1] = 3;
    (void)pair[0].real;
}
static void other(void) {
    pair[1].real = 1;
    pair[1].byte[0] = 2;
    (void)pair[1].whole;
}
static void *run(void *u) {
    await(0);
    other();
    make(1);
    return u;
}
int main(void) {
    pthread_t t;
    pthread_create(&t, 0, run, 0);
    pun();
    pthread_join(t, 0);
    return 0;
}
