/* Order between goroutines: sync's types, timers, and what else calls race.Acquire and race.Release. */
#include "log.h"

#include <stdlib.h>

/* ---- what is known of an address */

static struct sync **table;
static size_t room, count;

static size_t slot_of(word at) { return (at * 0x9e3779b97f4a7c15ull) >> 20 & (room - 1); }

static void grow(void) {
    struct sync **before = table, *next;
    size_t had = room;
    room = room ? 2 * room : 1 << 10;
    table = aero_new(room * sizeof *table);
    for (size_t one = 0; one < had; one++)
        for (struct sync *it = before[one]; it; it = next) {
            next = it->next;
            it->next = table[slot_of(it->at)];
            table[slot_of(it->at)] = it;
        }
    free(before);
}

struct sync *aero_sync(word at) {
    if (count >= room) grow();
    struct sync **slot = &table[slot_of(at)], *it = *slot;
    while (it && it->at != at) it = it->next;
    if (it) return it;
    struct object *of = aero_object(at);
    it = aero_new(sizeof *it);
    *it = (struct sync){.at = at, .next = *slot, .sibling = of ? of->syncs : NULL};
    if (of) of->syncs = it;
    count++;
    return *slot = it;
}

static void put_lock(char *name, word at) { *aero_put_variable(name, at) = 0; }

/* The rel of who has the mutex, where it can't write that itself. Nobody acquires the lock afterwards, or a later one of its name
 * at a quiet moment; so this orders nothing. */
static void release_for_owner(struct sync *it) {
    char name[512];
    if (!it->owner || it->is_handed) return;
    put_lock(name, it->at);
    aero_numbered_line(it->owner_number, "rel", name);
}

static void forget(struct sync *it) {
    struct sync **from = &table[slot_of(it->at)];
    while (*from != it) from = &(*from)->next;
    *from = it->next;
    release_for_owner(it);
    free(it->releases);
    free(it);
    count--;
}

/* The object is gone: another one that lies there begins anew. */
void aero_drop_syncs(struct object *of) {
    for (struct sync *it = of->syncs, *next; it; it = next) {
        next = it->sibling;
        forget(it);
    }
    of->syncs = NULL;
}

/* ---- releases and acquires. One that no block has been open since needs no reader, and its name is used again. */

void aero_release(struct goroutine *t, struct sync *s, int merges, const struct code *place) {
    if (s->count && aero_is_past(s->releases[s->count - 1].when)) s->count = s->slots = 0;
    if (!merges) s->count = 0;
    if (s->count == s->room) s->releases = aero_more(s->releases, sizeof *s->releases, &s->room);
    aero_suffixed(t, "w", s->at, &(struct suffix){"~", s->slots, place});
    s->releases[s->count++] = (struct release){t->id, s->slots++, aero_now};
}

void aero_acquire(struct goroutine *t, struct sync *s, const struct code *place) {
    for (size_t one = 0; one < s->count; one++) {
        const struct release *it = &s->releases[one];
        if (it->by != t->id && !aero_is_past(it->when)) aero_suffixed(t, "r", s->at, &(struct suffix){"~", it->slot, place});
    }
}

/* ---- sync's types */

/* Who locks what another goroutine has unlocked, and hadn't locked, waits for that one, as at a semaphore. */
static void wait_for_unlocker(struct goroutine *t, const struct sync *s, bool locks) {
    if (locks && s->unlocker && s->unlocker != t->id) aero_waits(t);
}

/* A lock as long as who has locked it unlocks it, and from then on a variable. One that is had twice was overwritten in the meantime, as
 * by *s = state{}. */
static void mutex(struct goroutine *t, word at, bool locks, const struct code *place) {
    struct sync *s = aero_sync(at);
    bool hands_on = !locks && s->owner != t->id, was_overwritten = locks && s->owner;
    if (hands_on || was_overwritten) {
        release_for_owner(s);
        s->is_handed = true;
    }
    wait_for_unlocker(t, s, locks);
    s->unlocker = hands_on ? t->id : 0;
    if (s->is_handed) aero_suffixed(t, "w", at, &(struct suffix){".handed", -1, place});
    else aero_suffixed(t, locks ? "acq" : "rel", at, &(struct suffix){"", -1, place});
    s->owner = locks ? t->id : 0;
    s->owner_number = t->number;
}

/* Done merges, Wait acquires. The first Done behind a Wait begins another round. Who has made each Done of it itself waits for nobody. */
static void wait_group(struct goroutine *t, const struct ordered *it) {
    struct sync *s = aero_sync(it->at);
    if (it->how == ACQUIRE) {
        if (s->doer && (s->doer != t->id || s->is_by_several)) aero_waits(t);
        aero_acquire(t, s, it->place);
        s->is_merged = false;
        return;
    }
    if (!s->is_merged) {
        s->count = 0;
        s->doer = t->id;
    }
    s->is_by_several = s->is_merged && (s->is_by_several || s->doer != t->id);
    s->is_merged = true;
    aero_release(t, s, 1, it->place);
}

static void other(struct goroutine *t, const struct ordered *it) {
    struct sync *s = aero_sync(it->at);
    if (it->how == ACQUIRE || it->how == RELEASE_ACQUIRE) aero_acquire(t, s, it->place);
    if (it->how != ACQUIRE) aero_release(t, s, it->how == MERGE, it->place);
}

static void timer_fires(struct goroutine *t, const struct ordered *it) {
    aero_end_of_timer(t);
    aero_acquire(t, aero_sync(it->at), it->place);
}

/* The standard library's own locks have no events. What they guard has, so two calls that only read the same don't conflict. */
static bool is_own_lock(const struct ordered *it) {
    enum asker asker = it->asker->asker;
    return (asker == MUTEX || asker == READER || asker == WRITER) && (it->place->is & IS_LIBRARY);
}

/* What the program has locked the library may unlock, as by t.Cleanup(mutex.Unlock). */
static void lock_or_unlock(struct goroutine *t, const struct ordered *it) {
    bool locks = it->how == ACQUIRE;
    if (!is_own_lock(it) || (!locks && aero_sync(it->at)->owner)) mutex(t, it->at, locks, it->place);
}

/* The same of a RWMutex. RLock acquires readerSem, and RUnlock releases writerSem. Lock acquires both, and Unlock releases readerSem. */
static void read_or_write(struct goroutine *t, const struct ordered *it) {
    bool locks = it->how == ACQUIRE, writes = it->asker->asker == WRITER;
    if (locks && (is_own_lock(it) || (writes && !(t->half ^= 1)))) return;
    struct sync *s = aero_sync(it->at - (word)(locks || writes ? aero_reader_sem : aero_writer_sem));
    if (!s->holders && is_own_lock(it)) return;
    if (locks) s->holders++;
    else if (s->holders) s->holders--;
    wait_for_unlocker(t, s, locks);
    if (writes && !locks) s->unlocker = s->writer == t->id ? 0 : t->id;
    if (writes && locks) s->writer = t->id;
    aero_suffixed(t, writes ? "w" : "r", s->at, &(struct suffix){".rw", -1, it->place});
}

/* Where Cond.Wait unlocks its lock, a Mutex or one of the two of a RWMutex, it waits. */
static void wait_if_unlocked(const struct here *here, struct goroutine *t, const struct ordered *it) {
    enum asker asker = it->asker->asker;
    if (it->how == ACQUIRE || (asker != MUTEX && asker != READER && asker != WRITER)) return;
    if (aero_settings.splits_waits && aero_is_within_wait(here)) aero_waits(t);
}

/* Whether no other hook of the same operation follows. Who receives without a buffer releases first. */
static bool is_last(const struct ordered *it) {
    if (it->how == ACQUIRE || it->asker->asker == CHANNEL_RECEIVE) return false;
    return it->asker->asker != CHANNEL_SEND || !aero_settings.both_ways;
}

/* Whether the goroutine has waited for who receives now. The runtime calls the hooks of both, and holds the channel's lock meanwhile, so
 * the goroutine and its stack stay where they are. */
static bool is_of_parked_sender(const struct here *here, const struct goroutine *t, const struct ordered *it) {
    return it->how != ACQUIRE && it->asker->asker == CHANNEL_RECEIVE && t->g && t->g != here->g;
}

void aero_order(const struct here *here, struct goroutine *t, word at, enum order how) {
    struct code *place;
    const struct code *asker = aero_asked(here, *(const word *)here->stack, &place);
    const struct ordered it = {at, how, asker, place};
    aero_drop_dead(t, here, here->stack);
    if (asker->asker == HELPER || asker->asker == NOBODY || (asker->asker == WAIT_GROUP && aero_is_quiet(t))) return;
    if (asker->asker == MUTEX) lock_or_unlock(t, &it);
    else if (asker->asker == READER || asker->asker == WRITER) read_or_write(t, &it);
    else if (asker->asker == WAIT_GROUP) wait_group(t, &it);
    else if (asker->asker == TIMER_FIRES) timer_fires(t, &it);
    else if (asker->asker >= CHANNEL_SEND) aero_channel(t, &it);
    else other(t, &it);
    wait_if_unlocked(here, t, &it);
    if (is_of_parked_sender(here, t, &it)) aero_end_parked(t);
    else if (is_last(&it)) aero_end_early(t, here);
}
