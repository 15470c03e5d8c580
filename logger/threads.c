/* Threads: their numbers, their starts, and what is logged at their ends. */
#include "log.h"

#include <stdio.h>
#include <threads.h>
#include <time.h>

/* The program may have an allocator of its own. */
extern void *__libc_malloc(size_t);
extern void __libc_free(void *);

static pthread_key_t at_end;             /* its destructor runs however a thread ends */

/* The numbers of the threads that may still be joined. */
struct joinable {
    pthread_t id;
    int number;                          /* 0: the place is free */
};
static struct joinable *joinable;
static size_t joinable_count, joinable_room;
static lock_word joinable_lock;

void aero_lock_threads(void) { aero_take(&joinable_lock); }
void aero_unlock_threads(void) { aero_let_go(&joinable_lock); }
/* The same where a signal handler may come, which waits meanwhile. */
static int lock_joinable(void) {
    int before = aero_me.busy;
    aero_me.busy = before + 1;
    atomic_signal_fence(memory_order_seq_cst);
    aero_lock_threads();
    return before;
}
static void unlock_joinable(int before) {
    aero_unlock_threads();
    aero_be_busy_as(before);
}
void aero_forget_threads(void) {
    joinable_count = 0;
    atomic_store(&joinable_lock.sleepers, 0);
}

/* ---- cancelling */

/* Within the logger a thread that is cancelled asynchronously would end with the logger's locks. So it is cancelled as usual
 * instead, at its next access, function entry or cancellation point. */
EXPORT int pthread_setcanceltype(int type, int *old) {
    REAL(int, pthread_setcanceltype, int, int *)
    bool is_known = type == PTHREAD_CANCEL_DEFERRED || type == PTHREAD_CANCEL_ASYNCHRONOUS;
    bool is_logged = atomic_load_explicit(&aero_state, memory_order_relaxed) == ON || aero_me.cancels;
    if (!is_known || !is_logged) return real(type, old);
    int error = real(PTHREAD_CANCEL_DEFERRED, old);
    if (old && aero_me.cancels) *old = PTHREAD_CANCEL_ASYNCHRONOUS;
    aero_me.cancels = type == PTHREAD_CANCEL_ASYNCHRONOUS;
    return error;
}
void aero_be_cancelled(void) {
    if (!aero_me.busy) pthread_testcancel();
}

/* ---- numbers */

/* The place of the thread, or else a free one, which is the last if there is none but that. */
static size_t place_of(pthread_t id, bool or_free) {
    size_t free_place = joinable_count;
    for (size_t place = 0; place < joinable_count; place++)
        if (!joinable[place].number) free_place = place;
        else if (pthread_equal(joinable[place].id, id)) return place;
    return or_free ? free_place : joinable_count;
}

/* The system uses the id of a thread again that was joined, or detached and has ended: then the new number counts. */
static void note(pthread_t id, int number) {
    size_t place = place_of(id, true);
    if (!aero_has_room((void **)&joinable, sizeof *joinable, place, &joinable_room)) return;
    joinable[place] = (struct joinable){id, number};
    if (place == joinable_count) joinable_count++;
}

/* The number of the thread, which is no longer noted; 0 of one that isn't known, and where nothing is logged. */
static int take(pthread_t id) {
    int number = 0;
    if (atomic_load_explicit(&aero_state, memory_order_relaxed) != ON) return 0;
    int before = lock_joinable();
    size_t place = place_of(id, false);
    if (place < joinable_count) {
        number = joinable[place].number;
        joinable[place].number = 0;
    }
    unlock_joinable(before);
    return number;
}

static void note_again(pthread_t id, int number) {
    int before = lock_joinable();
    note(id, number);
    unlock_joinable(before);
}

static void thread_line(const char *operation, int number, uintptr_t code) {
    char name[16];
    if (!aero_enter()) return;
    snprintf(name, sizeof name, "T%d", number);
    aero_lock();
    aero_split_at_thread();
    aero_line(operation, "", 0, name, code);
    aero_unlock();
    aero_leave();
}

void aero_end_thread(void) {
    aero_end_blocks();
    aero_release_all();
}
/* A signal may still come to the thread, whose handler begins anew. */
static void free_memory(struct thread *me) {
    void *frames = me->frames, *held = me->held;
    size_t frame_room = me->room, held_room = me->held_room;
    me->depth = me->room = me->holds = me->held_room = 0;
    me->has_end = false;
    me->frames = NULL;
    me->held = NULL;
    atomic_signal_fence(memory_order_seq_cst);
    aero_free_pages(frames, frame_room * sizeof *me->frames);
    aero_free_pages(held, held_room * sizeof *me->held);
}
static void ends(void *unused) {
    bool logs = aero_enter();
    (void)unused;
    if (logs) {
        aero_lock();
        aero_end_thread();
        aero_unlock();
        aero_forget_stack();
    }
    free_memory(&aero_me);
    aero_drop_signal_stack();
    if (logs) aero_leave();
}
bool aero_threads_start(void) { return !pthread_key_create(&at_end, ends); }
bool aero_end_with_thread(void) { return aero_me.has_end = !pthread_setspecific(at_end, &aero_me); }

/* ---- starts */

/* What a new thread is told by who starts it. Both note its number, whoever is first, since both may let others join it; and the
 * later one frees this. */
struct seed {
    void *(*run)(void *);
    int (*run_c11)(void *);
    void *with;
    int number;
    bool noted;
    atomic_int users;
};

static struct seed *new_seed(struct seed is, uintptr_t code) {
    struct seed *seed = __libc_malloc(sizeof *seed);
    if (!seed) return NULL;
    *seed = is;
    seed->number = aero_next_number();
    atomic_init(&seed->users, 2);
    thread_line("fork", seed->number, code);
    return seed;
}
static void let_go(struct seed *seed) {
    if (atomic_fetch_sub(&seed->users, 1) == 1) __libc_free(seed);
}
static void note_once(struct seed *seed, pthread_t id) {
    int before = lock_joinable();
    if (!seed->noted) note(id, seed->number);
    seed->noted = true;
    unlock_joinable(before);
    let_go(seed);
}

/* The stack and what lies there are new variables. */
static void renew_stack(void) {
    pthread_attr_t attributes;
    void *low;
    size_t size;
    if (pthread_getattr_np(pthread_self(), &attributes)) return;
    if (!pthread_attr_getstack(&attributes, &low, &size)) aero_note_stack((uintptr_t)low, (uintptr_t)low + size);
    pthread_attr_destroy(&attributes);
}

/* The C library has started it, for a timer or for input and output by aio: the stack may have been another one's too. */
void aero_meet_thread(void) {
    aero_number(aero_next_number());
    renew_stack();
}

static struct seed grow(void *given) {
    struct seed seed = *(struct seed *)given;
    aero_me.busy = 1;
    aero_number(seed.number);
    renew_stack();
    note_once(given, pthread_self());
    aero_end_with_thread();
    aero_take_signal_stack();
    aero_be_busy_as(0);
    return seed;
}
static void *run(void *given) {
    struct seed seed = grow(given);
    return seed.run(seed.with);
}
static int run_c11(void *given) {
    struct seed seed = grow(given);
    return seed.run_c11(seed.with);
}

/* A stack that the program has asked to be small gets room for what the hooks take, unless it is memory of the program's. */
static const pthread_attr_t *with_room(const pthread_attr_t *given, pthread_attr_t *ours) {
    enum { ENOUGH = 1 << 18, MORE = 1 << 16 };
    void *low;
    size_t size;
    if (!given || pthread_attr_getstack(given, &low, &size) || (uintptr_t)low + size) return given;
    if (pthread_attr_getstacksize(given, &size) || size >= ENOUGH) return given;
    *ours = *given;
    return pthread_attr_setstacksize(ours, size + MORE) ? given : ours;
}

/* The fork is logged before the thread is there. */
#define CREATE(name, attributes_given, enlarge, field, runs, ...) \
    EXPORT int name(__VA_ARGS__) { \
        REAL(int, name, __VA_ARGS__) \
        aero_start(); \
        struct seed *seed = NULL; \
        if (atomic_load(&aero_state) == ON) seed = new_seed((struct seed){.field = start, .with = with}, HERE); \
        if (!seed) return real(id attributes_given, start, with); \
        enlarge \
        int refused = real(id attributes_given, runs, seed); \
        if (refused) __libc_free(seed); \
        else note_once(seed, *id); \
        return refused; \
    }
#define ATTRIBUTES , attributes
#define ENLARGE pthread_attr_t larger; attributes = with_room(attributes, &larger);
CREATE(pthread_create, ATTRIBUTES, ENLARGE, run, run, pthread_t *id, const pthread_attr_t *attributes,
       void *(*start)(void *), void *with)
CREATE(thrd_create, , , run_c11, run_c11, thrd_t *id, thrd_start_t start, void *with)

/* ---- joins */

/* The number is taken before the wait, since the system may use the id again at once behind it. Where the thread is cancelled in the
 * wait, another one may still join. */
struct join {
    pthread_t id;
    int number;
};
static void is_not_joined(void *given) {
    struct join *join = given;
    if (join->number) note_again(join->id, join->number);
}
#define JOIN(name, id_type, extra, ...) \
    EXPORT int name(id_type id, __VA_ARGS__) { \
        REAL(int, name, id_type, __VA_ARGS__) \
        struct join join = {id, take(id)}; \
        int refused; \
        pthread_cleanup_push(is_not_joined, &join) \
        refused = real extra; \
        pthread_cleanup_pop(refused); \
        if (join.number && !refused) thread_line("join", join.number, HERE); \
        return refused; \
    }
JOIN(pthread_join, pthread_t, (id, result), void **result)
JOIN(pthread_tryjoin_np, pthread_t, (id, result), void **result)
JOIN(pthread_timedjoin_np, pthread_t, (id, result, until), void **result, const struct timespec *until)
JOIN(pthread_clockjoin_np, pthread_t, (id, result, clock, until), void **result, clockid_t clock, const struct timespec *until)
JOIN(thrd_join, thrd_t, (id, result), int *result)
