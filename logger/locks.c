/* Locks of the program, and its waits on condition variables. An acquire is logged once the lock is had, a release before it is given
 * back. */
#include "log.h"

#include <errno.h>
#include <threads.h>
#include <time.h>

typedef const struct timespec *until_type;

/* ---- what a thread holds; the log's lock is held */

static struct held *held_at(struct thread *me, size_t place) {
    return LIKELY(place < FEW_HELD) ? &me->few[place] : &me->held[place - FEW_HELD];
}

static void hold(uintptr_t lock, enum holding how) {
    struct thread *me = &aero_me;
    bool has_room = LIKELY(me->holds < FEW_HELD)
        || aero_has_room((void **)&me->held, sizeof *me->held, me->holds - FEW_HELD, &me->held_room);
    if (UNLIKELY(!has_room || (!me->has_end && !aero_end_with_thread()))) {
        aero_stop(CUT_MEMORY, "out of memory");
        return;
    }
    *held_at(me, me->holds) = (struct held){lock, how, aero_generation(lock)};
    me->holds++;
}

/* How the thread holds the lock, which it gives back; 0 if it isn't known to hold it. */
static enum holding let_go(uintptr_t lock) {
    struct thread *me = &aero_me;
    for (size_t place = me->holds; place > 0; place--) {
        struct held *it = held_at(me, place - 1);
        if (it->lock != lock || it->generation != aero_generation(lock)) continue;
        enum holding how = it->how;
        *it = *held_at(me, --me->holds);
        return how;
    }
    return 0;
}

static void lock_line(const char *operation, uintptr_t lock, enum holding how, uintptr_t code) {
    if (how == MUTEX) aero_line(operation, "", lock, NULL, code);
    else aero_line(how == READER ? "r" : "w", "rw.", lock, NULL, code);
}

/* ---- who holds which mutex; the log's lock is held */

/* A mutex that the log shows held. Once another thread has unlocked it, it is no lock in the log any more, but a variable that whoever
 * locks or unlocks it writes: X.handed. So each line with acq is of a lock that nobody holds. */
struct holder {
    uintptr_t lock;                      /* 0: the place is free */
    uint32_t generation;                 /* of the memory there */
    int owner;                           /* the number of the thread, or HANDED */
    size_t times;
};
enum { HANDED = -1 };
static struct holder *holders;
static size_t holder_count, holder_room;         /* holder_room: a power of two, or 0 */

static size_t home_of(uintptr_t lock) { return (size_t)(lock * 0x9e3779b97f4a7c15u >> 32) & (holder_room - 1); }
static struct holder *holder_at(uintptr_t lock) {
    size_t place = home_of(lock);
    while (holders[place].lock && holders[place].lock != lock) place = (place + 1) & (holder_room - 1);
    return &holders[place];
}

/* That of the mutex that lies there now; NULL: none. */
static struct holder *holder_of(uintptr_t lock) {
    struct holder *it = holder_room ? holder_at(lock) : NULL;
    return it && it->lock && it->generation == aero_generation(lock) ? it : NULL;
}

static bool holders_have_room(void) {
    if (2 * (holder_count + 1) <= holder_room) return true;
    struct holder *old = holders;
    size_t old_room = holder_room, more = holder_room ? 2 * holder_room : 128;
    struct holder *made = aero_pages(more * sizeof *made);
    if (!made) return false;
    holders = made;
    holder_room = more;
    for (size_t place = 0; place < old_room; place++)
        if (old[place].lock) *holder_at(old[place].lock) = old[place];
    if (old) aero_free_pages(old, old_room * sizeof *old);
    return true;
}
static void note_holder(uintptr_t lock) {
    if (!holders_have_room()) {
        aero_stop(CUT_MEMORY, "out of memory");
        return;
    }
    struct holder *it = holder_at(lock);
    holder_count += !it->lock;
    *it = (struct holder){lock, aero_generation(lock), aero_me.number, 1};
}

/* What lies behind it comes nearer to where it is looked for. */
static void forget_holder(struct holder *it) {
    size_t free_place = (size_t)(it - holders), mask = holder_room - 1;
    for (size_t place = (free_place + 1) & mask; holders[place].lock; place = (place + 1) & mask) {
        size_t home = home_of(holders[place].lock);
        if (((place - home) & mask) < ((place - free_place) & mask)) continue;
        holders[free_place] = holders[place];
        free_place = place;
    }
    holders[free_place].lock = 0;
    holder_count--;
}

void aero_forget_locks(void) {
    aero_free_pages(holders, holder_room * sizeof *holders);
    holders = NULL;
    holder_count = holder_room = 0;
    aero_me.holds = 0;
}

static void tell_of_handed(uintptr_t lock, bool locks) {
    static bool is_told;
    char name[MOST_NAME + 64];
    if (is_told) return;
    is_told = true;
    *aero_put_variable(name, lock) = 0;
    aero_say(name, locks ? "a thread locks the mutex that another one holds in the log, as if it were made anew: the log has w(..handed) for it "
                           "from here on"
                         : "a thread unlocks the mutex that another one has locked: the log has w(..handed) for it from here on");
}
static void handed_line(uintptr_t lock, uintptr_t code) {
    char name[MOST_NAME + 64];
    *aero_put_text(aero_put_variable(name, lock), ".handed") = 0;
    aero_line("w", "", 0, name, code);
}

/* Whether it is a lock in the log, which the thread takes. */
static bool takes_mutex(uintptr_t lock) {
    struct holder *it = holder_of(lock);
    if (!it) note_holder(lock);
    else if (it->owner == aero_me.number) it->times++;
    else if (it->owner != HANDED) {
        it->owner = HANDED;
        tell_of_handed(lock, true);
    }
    return !it || it->owner != HANDED;
}

/* Whether it is one, which the thread has taken or nobody. */
static bool gives_mutex(uintptr_t lock) {
    struct holder *it = holder_of(lock);
    if (!it) return true;
    if (it->owner == aero_me.number) {
        if (!--it->times) forget_holder(it);
        return true;
    }
    if (it->owner != HANDED) tell_of_handed(lock, false);
    it->owner = HANDED;
    return false;
}

/* ---- what a thread takes and gives back; the log's lock is held */

/* (a lock whose memory is other variables by now isn't there any more) */
void aero_release_all(void) {
    struct thread *me = &aero_me;
    while (me->holds) {
        struct held it = *held_at(me, --me->holds);
        if (it.generation != aero_generation(it.lock)) continue;
        if (it.how != MUTEX || gives_mutex(it.lock)) lock_line("rel", it.lock, it.how, 0);
    }
}

/* A process that ends between the line and what is noted releases nothing that it hasn't acquired, and nothing twice. */
void aero_hold(uintptr_t lock, enum holding how, uintptr_t code) {
    if (UNLIKELY(aero_is_of_contained_cpp(lock))) return;
    if (how == MUTEX && UNLIKELY(!takes_mutex(lock))) {
        handed_line(lock, code);
        return;
    }
    lock_line("acq", lock, how, code);
    hold(lock, how);
}

/* How the thread held what it is about to give back. A lock that nobody is known to hold, as one that was taken before the log
 * began, isn't released there. */
enum holding aero_release(uintptr_t lock, uintptr_t code) {
    if (UNLIKELY(aero_is_of_contained_cpp(lock))) return 0;
    enum holding how = let_go(lock);
    if ((how == MUTEX || !how) && UNLIKELY(!gives_mutex(lock))) {
        handed_line(lock, code);
        return MUTEX;
    }
    if (how) lock_line("rel", lock, how, code);
    return how;
}

uintptr_t aero_last_mutex(void) {
    for (size_t place = aero_me.holds; place > 0; place--)
        if (held_at(&aero_me, place - 1)->how == MUTEX) return held_at(&aero_me, place - 1)->lock;
    return 0;
}

/* Locks that the C++ library has for variables of its own, as for the program's locale, of which each stream takes a copy: no program
 * counts on their order. (aero_hold knows those that the program contains) */
static bool is_of_library(uintptr_t lock) { return aero_is_of_condition() || aero_is_of_cpp_library(lock); }

void aero_acquired(uintptr_t lock, enum holding how, uintptr_t code) {
    if (is_of_library(lock) || !aero_enter()) return;
    aero_lock();
    aero_hold(lock, how, code);
    aero_unlock();
    aero_leave();
}
enum holding aero_releasing(uintptr_t lock, uintptr_t code) {
    if (is_of_library(lock) || !aero_enter()) return 0;
    aero_lock();
    enum holding how = aero_release(lock, code);
    aero_unlock();
    aero_leave();
    return how;
}

/* ---- mutexes and spin locks */

/* Whether the lock is had, also where its owner has ended with it. */
static bool is_had(int result) { return result == 0 || result == EOWNERDEAD; }

/* Whether the log shows the mutex held by another thread. */
static bool is_of_another(uintptr_t lock) {
    const struct holder *it = holder_of(lock);
    return it && it->owner != aero_me.number && it->owner != HANDED;
}
/* Gives the lock back by the C library's function. A mutex of another thread is given back while the log's lock is held: the C library
 * may refuse that (EPERM), and then nothing has happened. */
static int given_back(void *lock, uintptr_t code, int (*real)(void *)) {
    if (is_of_library((uintptr_t)lock) || !aero_enter()) return real(lock);
    aero_lock();
    bool is_others = is_of_another((uintptr_t)lock);
    int result = is_others ? real(lock) : 0;
    if (!result) aero_release((uintptr_t)lock, code);
    aero_unlock();
    aero_leave();
    return is_others ? result : real(lock);
}

#define ACQUIRE(name, how, arguments, ...) \
    EXPORT int name(__VA_ARGS__) { \
        REAL(int, name, __VA_ARGS__) \
        aero_may_stir(); \
        int result = real arguments; \
        if (is_had(result)) aero_acquired((uintptr_t)lock, how, HERE); \
        return result; \
    }
#define RELEASE(name, type) \
    EXPORT int name(type *lock) { \
        REAL(int, name, void *) \
        return given_back((void *)lock, HERE, real); \
    }
ACQUIRE(pthread_mutex_lock, MUTEX, (lock), pthread_mutex_t *lock)
ACQUIRE(pthread_mutex_trylock, MUTEX, (lock), pthread_mutex_t *lock)
ACQUIRE(pthread_mutex_timedlock, MUTEX, (lock, until), pthread_mutex_t *lock, until_type until)
ACQUIRE(pthread_mutex_clocklock, MUTEX, (lock, clock, until), pthread_mutex_t *lock, clockid_t clock, until_type until)
RELEASE(pthread_mutex_unlock, pthread_mutex_t)
ACQUIRE(pthread_spin_lock, MUTEX, (lock), pthread_spinlock_t *lock)
ACQUIRE(pthread_spin_trylock, MUTEX, (lock), pthread_spinlock_t *lock)
RELEASE(pthread_spin_unlock, pthread_spinlock_t)
ACQUIRE(mtx_lock, MUTEX, (lock), mtx_t *lock)
ACQUIRE(mtx_trylock, MUTEX, (lock), mtx_t *lock)
ACQUIRE(mtx_timedlock, MUTEX, (lock, until), mtx_t *lock, until_type until)
RELEASE(mtx_unlock, mtx_t)

/* ---- read-write locks */

ACQUIRE(pthread_rwlock_rdlock, READER, (lock), pthread_rwlock_t *lock)
ACQUIRE(pthread_rwlock_tryrdlock, READER, (lock), pthread_rwlock_t *lock)
ACQUIRE(pthread_rwlock_timedrdlock, READER, (lock, until), pthread_rwlock_t *lock, until_type until)
ACQUIRE(pthread_rwlock_clockrdlock, READER, (lock, clock, until), pthread_rwlock_t *lock, clockid_t clock, until_type until)
ACQUIRE(pthread_rwlock_wrlock, WRITER, (lock), pthread_rwlock_t *lock)
ACQUIRE(pthread_rwlock_trywrlock, WRITER, (lock), pthread_rwlock_t *lock)
ACQUIRE(pthread_rwlock_timedwrlock, WRITER, (lock, until), pthread_rwlock_t *lock, until_type until)
ACQUIRE(pthread_rwlock_clockwrlock, WRITER, (lock, clock, until), pthread_rwlock_t *lock, clockid_t clock, until_type until)
RELEASE(pthread_rwlock_unlock, pthread_rwlock_t)

/* ---- condition variables */

/* The lock is had again however the wait ends, also where the thread is cancelled in it. In condition_variable_any it isn't that of the
 * program, whose blocks begin again where that is taken. */
struct wait {
    uintptr_t lock, code;
    enum holding how;
    bool is_of_condition;
};
static void split(bool begins) {
    if (!aero_settings.splits_waits || !aero_enter()) return;
    aero_split_blocks(begins);
    aero_leave();
}
static void has_again(void *given) {
    struct wait *wait = given;
    if (!wait->is_of_condition) split(true);
    if (wait->how) aero_acquired(wait->lock, wait->how, wait->code);
}

/* The C library refuses a wait until no time, and, unless the mutex is of the plain kind, one with a mutex that the thread doesn't hold:
 * then nothing happens. */
static bool is_time(const struct timespec *until) { return until->tv_nsec >= 0 && until->tv_nsec < 1000000000; }
static bool is_refused(const void *lock) {
    enum { CHECKED = 3, ROBUST = 16, ADAPTIVE = 3 };
    int kind = ((const pthread_mutex_t *)lock)->__data.__kind;
    bool is_checked = kind & ROBUST || ((kind & CHECKED) && (kind & CHECKED) != ADAPTIVE);
    if (!is_checked || !aero_enter()) return false;
    aero_lock();
    bool is_others = is_of_another((uintptr_t)lock);
    aero_unlock();
    aero_leave();
    return is_others;
}

#define WAIT(name, version, is_valid, arguments, ...) \
    EXPORT int name(__VA_ARGS__) { \
        REAL_VERSION(int, name, version, __VA_ARGS__) \
        if (!(is_valid) || is_refused(lock)) return real arguments; \
        struct wait wait = {(uintptr_t)lock, HERE, 0, aero_is_of_condition()}; \
        int result; \
        wait.how = aero_releasing(wait.lock, wait.code); \
        split(false); \
        pthread_cleanup_push(has_again, &wait) \
        result = real arguments; \
        pthread_cleanup_pop(1); \
        return result; \
    }
#ifdef __x86_64__
#define CONDITIONS "GLIBC_2.3.2"
#else
#define CONDITIONS NULL
#endif
WAIT(pthread_cond_wait, CONDITIONS, true, (condition, lock), pthread_cond_t *condition, pthread_mutex_t *lock)
WAIT(pthread_cond_timedwait, CONDITIONS, is_time(until), (condition, lock, until),
        pthread_cond_t *condition, pthread_mutex_t *lock, until_type until)
WAIT(pthread_cond_clockwait, NULL, is_time(until), (condition, lock, clock, until),
        pthread_cond_t *condition, pthread_mutex_t *lock, clockid_t clock, until_type until)
WAIT(cnd_wait, NULL, true, (condition, lock), cnd_t *condition, mtx_t *lock)
WAIT(cnd_timedwait, NULL, is_time(until), (condition, lock, until), cnd_t *condition, mtx_t *lock, until_type until)

/* ---- mutexes of programs that know of -fsanitize=thread */

/* Such a mutex may have readers. */
enum { READ_LOCK = 1 << 3, TRY_FAILED = 1 << 5 };
EXPORT void __tsan_mutex_create(void *at, unsigned flags) { (void)at, (void)flags; }
EXPORT void __tsan_mutex_destroy(void *at, unsigned flags) { (void)at, (void)flags; }
EXPORT void __tsan_mutex_pre_lock(void *at, unsigned flags) { (void)at, (void)flags; }
EXPORT void __tsan_mutex_post_lock(void *at, unsigned flags, int times) {
    (void)times;
    if (!(flags & TRY_FAILED)) aero_acquired((uintptr_t)at, flags & READ_LOCK ? READER : WRITER, HERE);
}
EXPORT int __tsan_mutex_pre_unlock(void *at, unsigned flags) {
    (void)flags;
    aero_releasing((uintptr_t)at, HERE);
    return 0;
}
EXPORT void __tsan_mutex_post_unlock(void *at, unsigned flags) { (void)at, (void)flags; }
EXPORT void __tsan_mutex_pre_signal(void *at, unsigned flags) { (void)at, (void)flags; }
EXPORT void __tsan_mutex_post_signal(void *at, unsigned flags) { (void)at, (void)flags; }
EXPORT void __tsan_mutex_pre_divert(void *at, unsigned flags) { (void)at, (void)flags; }
EXPORT void __tsan_mutex_post_divert(void *at, unsigned flags) { (void)at, (void)flags; }
