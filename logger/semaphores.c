/* Semaphores. Each post has a number K, and writes sem.X.K before anybody can take its permit. A wait reads, once it is through, the
 * posts without which it would have had to wait, as far as the log can tell:
 *
 *   all posts, and all waits, since the semaphore had no permit are of one thread each   the K-th such wait reads the K-th post
 *   all waits since then are of this thread, and it takes the last permit                it reads all posts since then
 *   it takes the last permit                                                             it reads the last post
 *   otherwise                                                                            it reads none: another permit was there
 *
 * Permits that it has at its start count as if nobody had posted them, and while some of these were never taken, no thread needs
 * another one's post. So threads that have permits at the same time don't conflict, and of one permit each user comes behind the one
 * before. A wait that fails has no event. */
#include "log.h"

#include <semaphore.h>
#include <time.h>

/* What another process posts has no number. */
enum { SEVERAL = -1 };           /* in the place of the number of a thread: of more than one */
struct semaphore {
    uintptr_t at;                /* 0: none */
    uint64_t posts;              /* in all, also of those that were there before it was made anew */
    /* Since it had no permit, or else since its start: */
    uint64_t from;               /* how many posts there were before */
    uint64_t spare;              /* its value at its start; 0 since it had none */
    uint64_t waits;
    int poster, waiter;
};
static struct semaphore *all;
static size_t count, room;       /* room: a power of two, or 0 */

/* Its place, or the free one for it; the log's lock is held. */
static struct semaphore *place_of(uintptr_t at) {
    size_t place = (size_t)((at >> 4) * 0x9e3779b97f4a7c15u) & (room - 1);
    while (all[place].at && all[place].at != at) place = (place + 1) & (room - 1);
    return &all[place];
}
static bool has_room(void) {
    if (2 * (count + 1) <= room) return true;
    struct semaphore *old = all;
    size_t old_room = room, more = room ? 2 * room : 128;
    struct semaphore *made = aero_pages(more * sizeof *made);
    if (!made) {
        aero_stop(CUT_MEMORY, "out of memory");
        return false;
    }
    all = made;
    room = more;
    for (size_t place = 0; place < old_room; place++)
        if (old[place].at) *place_of(old[place].at) = old[place];
    if (old) aero_free_pages(old, old_room * sizeof *old);
    return true;
}
/* NULL where memory is refused. One that is met for the first time has as many permits as it has now. */
static struct semaphore *known(sem_t *semaphore, int value) {
    if (!has_room()) return NULL;
    struct semaphore *it = place_of((uintptr_t)semaphore);
    if (it->at) return it;
    *it = (struct semaphore){.at = (uintptr_t)semaphore, .spare = value > 0 ? (uint64_t)value : 0};
    count++;
    return it;
}
/* (an address that isn't mapped faults here, where no lock is held) */
static int value_of(sem_t *semaphore) {
    int value = 0;
    return sem_getvalue(semaphore, &value) ? 0 : value;
}

static void line(const char *operation, const struct semaphore *it, uint64_t number, uintptr_t code) {
    char name[MOST_NAME + 64], digits[24], *digit = digits, *to = aero_put_variable(name, it->at);
    *to++ = '.';
    for (; number; number /= 10) *digit++ = (char)('0' + number % 10);
    while (digit > digits) *to++ = *--digit;
    *to = 0;
    aero_line(operation, "sem.", 0, name, code);
}

EXPORT int sem_init(sem_t *semaphore, int is_shared, unsigned value) {
    REAL(int, sem_init, sem_t *, int, unsigned)
    int result = real(semaphore, is_shared, value);
    if (result || !aero_enter()) return result;
    aero_lock();
    struct semaphore *it = known(semaphore, 0);
    if (it) *it = (struct semaphore){.at = it->at, .posts = it->posts, .from = it->posts, .spare = value};
    aero_unlock();
    aero_leave();
    return result;
}

static void note_thread(int *who, bool is_first) {
    if (is_first) *who = aero_me.number;
    else if (*who != aero_me.number) *who = SEVERAL;
}

EXPORT int sem_post(sem_t *semaphore) {
    REAL(int, sem_post, sem_t *)
    uintptr_t code = HERE;
    if (!aero_enter()) return real(semaphore);
    int value = value_of(semaphore);
    aero_lock();
    struct semaphore *it = known(semaphore, value);
    int result = real(semaphore);
    if (it && !result) {
        note_thread(&it->poster, it->posts == it->from);
        line("w", it, ++it->posts, code);
    }
    if (result) aero_me.error = errno;
    aero_unlock();
    aero_leave();
    return result;
}

/* Before a wait, so that its permits are counted without it. */
static void meet(sem_t *semaphore) {
    if (!aero_enter()) return;
    int value = value_of(semaphore);
    aero_lock();
    known(semaphore, value);
    aero_unlock();
    aero_leave();
}

/* The reads of a wait that is through; `needs` permits of those that were posted are taken by now. */
static void read_posts(const struct semaphore *it, int64_t needs, uintptr_t code) {
    uint64_t posted = it->posts - it->from, first = it->posts + 1;
    bool is_last = needs == (int64_t)posted;
    if (needs <= 0 || needs > (int64_t)posted) return;
    if (it->waiter != SEVERAL && it->poster != SEVERAL) {
        line("r", it, it->from + (uint64_t)needs, code);
        return;
    }
    if (is_last && it->waiter != SEVERAL) first = it->from + 1;
    else if (is_last && !it->spare) first = it->posts;
    for (; first <= it->posts; first++) line("r", it, first, code);
}
static void has_waited(sem_t *semaphore, uintptr_t code) {
    if (!aero_enter()) return;
    aero_lock();
    struct semaphore *it = known(semaphore, 0);
    if (it) {
        note_thread(&it->waiter, !it->waits);
        int64_t needs = (int64_t)++it->waits - (int64_t)it->spare;
        read_posts(it, needs, code);
        if (needs >= (int64_t)(it->posts - it->from)) {
            it->from = it->posts;
            it->spare = it->waits = 0;
        }
    }
    aero_unlock();
    aero_leave();
}

#define WAIT(name, arguments, ...) \
    EXPORT int name(__VA_ARGS__) { \
        REAL(int, name, __VA_ARGS__) \
        meet(semaphore); \
        int result = real arguments; \
        if (!result) has_waited(semaphore, HERE); \
        return result; \
    }
typedef const struct timespec *until_type;
WAIT(sem_wait, (semaphore), sem_t *semaphore)
WAIT(sem_trywait, (semaphore), sem_t *semaphore)
WAIT(sem_timedwait, (semaphore, until), sem_t *semaphore, until_type until)
WAIT(sem_clockwait, (semaphore, clock, until), sem_t *semaphore, clockid_t clock, until_type until)
