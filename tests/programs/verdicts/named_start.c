// Verdict: violation collect
// Blocks: collect
// A thread starts with the function that is named, so this function is a block. It reads a sum and a count, and main adds to both in
// between.
#include "steps.h"
#include <pthread.h>
#include <stdatomic.h>
static atomic_int sum, count;

static void add(int value) {
    atomic_fetch_add(&sum, value);
    atomic_fetch_add(&count, 1);
}
static void *collect(void *average) {
    int before = atomic_load(&sum);
    make(0);
    await(1);
    *(int *)average = before / atomic_load(&count);
    return average;
}
int main(void) {
    pthread_t thread;
    int average = 0;
    add(8);
    pthread_create(&thread, NULL, collect, &average);
    await(0);
    add(4);
    make(1);
    pthread_join(thread, NULL);
    return average != 4;
}
