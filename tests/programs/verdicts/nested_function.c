// Verdict: violation swap
// Blocks: swap
// A nested function of gcc's changes a variable of the function around it, which another thread has the address of.
#include "steps.h"
#include <pthread.h>
static int *shared;
static void *other(void *unused) {
    await(0);
    *shared = 5;
    make(1);
    return unused;
}
static int swap(int *at, int to) {
    int seen = *at;
    make(0);
    await(1);
    *at = to;
    return seen;
}
int main(void) {
    int local = 1;
    int change(int to) { return swap(&local, to); }
    pthread_t thread;
    shared = &local;
    pthread_create(&thread, NULL, other, NULL);
    int before = change(2);
    pthread_join(thread, NULL);
    return before != 1 || local != 2;
}
