/* AERODROME_STIR: before it takes a lock, before an atomic operation and where a block begins, a thread now and then lets others
 * run, so that threads which do little overlap nevertheless. Where it does so follows from the number and the thread's own. */
#include "log.h"

#include <sched.h>
#include <sys/syscall.h>
#include <time.h>
#include <unistd.h>

bool aero_stirs;

void aero_stir_start(void) { aero_stirs = aero_settings.stir >= 0; }

static uint64_t next_random(uint64_t *state) {
    uint64_t mixed = *state += 0x9e3779b97f4a7c15u;
    mixed = (mixed ^ mixed >> 30) * 0xbf58476d1ce4e5b9u;
    mixed = (mixed ^ mixed >> 27) * 0x94d049bb133111ebu;
    return mixed ^ mixed >> 31;
}

/* Of the first places of a thread it sleeps at one of 8, of the others at one of 256, up to half a millisecond; at as many more it
 * only yields. */
void aero_stir(void) {
    enum { FIRST = 2000, OFTEN = 8, SELDOM = 256, NANOSECONDS = 1 << 19 };
    static __thread uint64_t state, places;
    if (atomic_load_explicit(&aero_state, memory_order_relaxed) != ON || aero_me.busy) return;
    if (!places++) state = (uint64_t)aero_settings.stir * 1000003 + (uint64_t)aero_me.number;
    uint64_t random = next_random(&state);
    unsigned what = random % (places < FIRST ? OFTEN : SELDOM);
    struct timespec some_time = {0, (long)(random >> 32 & (NANOSECONDS - 1))};
    int error = errno;
    if (what == 0) syscall(SYS_nanosleep, &some_time, NULL);
    if (what == 1) sched_yield();
    errno = error;
}
