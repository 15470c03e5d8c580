/* What orders threads, other than locks: barriers, functions that run once, and programs that say it by themselves. */
#include "log.h"

#include <threads.h>

/* ---- barriers */

EXPORT int pthread_barrier_wait(pthread_barrier_t *barrier) {
    REAL(int, pthread_barrier_wait, pthread_barrier_t *)
    aero_event("w", "bar.", (uintptr_t)barrier, HERE);
    int result = real(barrier);
    aero_event("r", "bar.", (uintptr_t)barrier, HERE);
    return result;
}

/* ---- functions that run once */

/* The write is logged where the function ends, before others are let through. */
struct once {
    void (*routine)(void);
    uintptr_t once, code;
    bool ran;
};
static __thread struct once *running;
static void run_once(void) {
    struct once *mine = running;
    mine->routine();
    mine->ran = true;
    aero_event("w", "once.", mine->once, mine->code);
}
#define ONCE(name, result_type, type) \
    static result_type name##_logged(type *once, struct once *mine) { \
        REAL(result_type, name, type *, void (*)(void)) \
        running = mine; \
        return real(once, run_once); \
    }
ONCE(pthread_once, int, pthread_once_t)
ONCE(call_once, void, once_flag)
static void after_once(const struct once *mine, struct once *before) {
    running = before;
    if (!mine->ran) aero_event("r", "once.", mine->once, mine->code);
}
/* The unwinder and the C++ library make tables for themselves so, for whichever thread is first: no program counts on that. */
static bool is_of_cpp(uintptr_t once, uintptr_t code) {
    if (aero_is_of_unwinder(code) || !aero_enter()) return true;
    aero_lock();
    bool is_contained = aero_is_of_contained_cpp(once);
    aero_unlock();
    aero_leave();
    return is_contained;
}
EXPORT int pthread_once(pthread_once_t *once, void (*routine)(void)) {
    REAL(int, pthread_once, pthread_once_t *, void (*)(void))
    if (atomic_load_explicit(&aero_state, memory_order_relaxed) != ON || is_of_cpp((uintptr_t)once, HERE)) return real(once, routine);
    struct once mine = {routine, (uintptr_t)once, HERE, 0}, *before = running;
    int result = pthread_once_logged(once, &mine);
    after_once(&mine, before);
    return result;
}
EXPORT void call_once(once_flag *once, void (*routine)(void)) {
    struct once mine = {routine, (uintptr_t)once, HERE, 0}, *before = running;
    call_once_logged(once, &mine);
    after_once(&mine, before);
}

/* ---- programs that know of -fsanitize=thread */

EXPORT void __tsan_acquire(void *at) { aero_event("r", "sync.", (uintptr_t)at, HERE); }
EXPORT void __tsan_release(void *at) { aero_event("w", "sync.", (uintptr_t)at, HERE); }
