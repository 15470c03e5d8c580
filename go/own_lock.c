/* The one lock of the logger. A hook that has it runs on a thread of the system that Go doesn't take from it, and no Go code runs
 * meanwhile. So who has it gives it back soon, and who waits long for it sleeps. */
#include "log.h"

#include <linux/futex.h>
#include <sys/syscall.h>
#include <time.h>
#include <unistd.h>

enum { FREE, HELD, SOMEBODY_SLEEPS, TURNS = 200 };
static atomic_int state;

static bool takes_it(void) {
    int found = FREE;
    return atomic_compare_exchange_strong_explicit(&state, &found, HELD, memory_order_acquire, memory_order_relaxed);
}

void aero_lock(void) {
    if (LIKELY(takes_it())) return;
    for (int turn = 0; turn < TURNS; turn++) {
        __builtin_ia32_pause();
        if (takes_it()) return;
    }
    while (atomic_exchange_explicit(&state, SOMEBODY_SLEEPS, memory_order_acquire) != FREE)
        syscall(SYS_futex, &state, FUTEX_WAIT_PRIVATE, SOMEBODY_SLEEPS, NULL, NULL, 0);
}

/* Whether the lock could be had within a second. */
bool aero_lock_soon(void) {
    const struct timespec a_while = {0, 1000000};
    for (int turn = 0; turn < 1000; turn++) {
        if (takes_it()) return true;
        nanosleep(&a_while, NULL);
    }
    return false;
}

void aero_unlock(void) {
    if (atomic_exchange_explicit(&state, FREE, memory_order_release) == SOMEBODY_SLEEPS)
        syscall(SYS_futex, &state, FUTEX_WAKE_PRIVATE, 1, NULL, NULL, 0);
}
