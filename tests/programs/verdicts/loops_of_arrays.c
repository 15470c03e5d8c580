// Verdict: violation shift
// Blocks: shift
// Options: -O2
// A block adds up an array and then changes all of it. Another thread changes it between the two.
#include "steps.h"
#include <pthread.h>
enum { LENGTH = 64 };
static long numbers[LENGTH];
static void shift(int first) {
    long sum = 1;
    for (int one = 0; one < LENGTH; one++) sum += numbers[one];
    if (first) {
        make(0);
        await(1);
    }
    for (int one = 0; one < LENGTH; one++) numbers[one] = sum + one;
}
static void *other(void *unused) {
    await(0);
    shift(0);
    make(1);
    return unused;
}
int main(void) {
    pthread_t thread;
    pthread_create(&thread, NULL, other, NULL);
    shift(1);
    pthread_join(thread, NULL);
    return 0;
}
