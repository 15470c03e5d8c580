// Verdict: violation wait_and_take
// Verdict with AERODROME_SPLIT=waits: serializable
// Blocks: wait_and_take,put
// A wait of threads.h gives the mutex back, and another thread changes what it covers.
#include "steps.h"
#include <threads.h>
static mtx_t lock;
static cnd_t has_one;
static int is_full, sum;
static void put(void) {
    mtx_lock(&lock);
    is_full = 1;
    cnd_signal(&has_one);
    mtx_unlock(&lock);
}
static void wait_and_take(void) {
    mtx_lock(&lock);
    make(0);
    while (!is_full) cnd_wait(&has_one, &lock);
    sum++;
    mtx_unlock(&lock);
}
static int other(void *x) {
    (void)x;
    await(0);
    put();
    return 0;
}
int main(void) {
    thrd_t t;
    mtx_init(&lock, mtx_plain);
    cnd_init(&has_one);
    thrd_create(&t, other, NULL);
    wait_and_take();
    thrd_join(t, NULL);
    return sum - 1;
}
