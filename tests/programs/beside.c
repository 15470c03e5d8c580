/* While a block uses an object of eight bytes, another thread allocates the one beside it, in the same 16 bytes, and then changes the
 * first one. */
#include "verdicts/steps.h"
#include <pthread.h>
#include <stdint.h>
#include <stdio.h>

static long *volatile kept;
static long *beside;

static long uses(void) {
    *kept = 1;
    make(0);
    await(1);
    return *kept;
}
static void *other(void *unused) {
    await(0);
    beside = malloc(sizeof *beside);
    *beside = 2;
    *kept = 3;
    make(1);
    return unused;
}

int main(void) {
    pthread_t thread;
    do kept = malloc(sizeof *kept);
    while ((uintptr_t)kept & 8);
    pthread_create(&thread, NULL, other, NULL);
    uses();
    pthread_join(thread, NULL);
    puts(beside - kept == 1 ? "side by side" : "apart");
    return 0;
}
