// Verdict: violation waits_for_it
// Blocks: waits_for_it
// A block writes what the function that runs once reads, and then waits for the end of that function.
#include "steps.h"
#include <pthread.h>
static pthread_once_t once = PTHREAD_ONCE_INIT;
static int first, seen;
static void prepare(void) {
    make(0);
    await(1);
    seen = first;
}
static void waits_for_it(void) {
    first = 1;
    make(1);
    pthread_once(&once, prepare);
}
static void *other(void *x) {
    pthread_once(&once, prepare);
    return x;
}
int main(void) {
    pthread_t t;
    pthread_create(&t, NULL, other, NULL);
    await(0);
    waits_for_it();
    pthread_join(t, NULL);
    return seen - 1;
}
