/* The logger's own locks. Most are let go at once: who finds one held looks again, then lets other threads run, and then sleeps
 * until it is let go, as its holder may wait for a slow pipe. */
#include "log.h"

#include <linux/futex.h>
#include <sched.h>
#include <sys/syscall.h>
#include <time.h>
#include <unistd.h>

enum { LOOKS = 300, YIELDS = 50 };

static bool is_taken(lock_word *lock, int by) {
    int found = 0;
    return atomic_compare_exchange_strong_explicit(&lock->owner, &found, by, memory_order_acquire, memory_order_relaxed);
}

/* Only looks while it is held: to try to change it would take it away from its holder's processor each time. */
static bool is_had_soon(lock_word *lock, int number) {
    for (int looks = 0; looks < LOOKS + YIELDS; looks++) {
        if (!atomic_load_explicit(&lock->owner, memory_order_relaxed) && is_taken(lock, number)) return true;
        if (looks >= LOOKS) sched_yield();
    }
    return false;
}

/* Who lets go looks for sleepers without a fence, which would cost each event more than the event itself; so it may miss one that
 * comes to sleep at that moment, which then looks for itself some time later. One is woken at a time, and says again that there
 * may be others. */
void aero_wait_for(lock_word *lock, int number) {
    const struct timespec some_time = {0, 200000000};
    int error = errno;
    while (!is_had_soon(lock, number)) {
        atomic_store(&lock->sleepers, 1);
        if (is_taken(lock, number)) break;
        syscall(SYS_futex, &lock->sleepers, FUTEX_WAIT_PRIVATE, 1, &some_time, NULL, 0);
        atomic_store(&lock->sleepers, 1);
    }
    errno = error;
}

void aero_wake(lock_word *lock) {
    int error = errno;
    atomic_store(&lock->sleepers, 0);
    syscall(SYS_futex, &lock->sleepers, FUTEX_WAKE_PRIVATE, 1, NULL, NULL, 0);
    errno = error;
}
