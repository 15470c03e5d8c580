// Verdict: violation postpone
// Blocks: postpone,is_due
// An alarm's time is a union of a whole number and its two halves. One thread writes the halves one after another, and another thread
// reads the whole between the two.
#include "steps.h"
#include <pthread.h>
#include <stdatomic.h>
#include <stdint.h>
union moment {
    _Atomic uint64_t ticks;
    struct {
        _Atomic uint32_t low, high;
    } half;
};
static union moment alarm_at;

static void postpone(uint64_t ticks) {
    atomic_store(&alarm_at.half.low, (uint32_t)ticks);
    make(0);
    await(1);
    atomic_store(&alarm_at.half.high, (uint32_t)(ticks >> 32));
}
static int is_due(uint64_t now) {
    return atomic_load(&alarm_at.ticks) <= now;
}
static void *postponer(void *unused) {
    postpone(UINT64_C(7) << 32);
    return unused;
}
int main(void) {
    pthread_t thread;
    atomic_store(&alarm_at.ticks, 500);
    pthread_create(&thread, NULL, postponer, NULL);
    await(0);
    int rings = is_due(100);
    make(1);
    pthread_join(thread, NULL);
    return !(rings && !is_due(100));
}
