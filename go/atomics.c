/* Atomic operations. They are carried out here, under the lock, so that the log has them in their true order (hooks.c). */
#include "log.h"

/* Returns whether a load of sync.Map's finds no value, or the word that stands for a deleted one. */
static bool finds_no_value(const struct atomic *it) {
    static const word nothing, *expunged;
    if (!expunged) expunged = aero_word("sync.expunged");
    if (!expunged) expunged = &nothing;
    return !it->found || it->found == *expunged;
}

/* Returns whether sync.Map goes on with another operation on the entry after one that doesn't write, which is no event then: it tries a
 * failed compare-and-swap again, LoadOrStore stores if it finds no value, Delete deletes if it finds one, and Store stores always. */
static bool goes_on(const struct atomic *it) {
    if (!it->is_load) return true;
    if (it->asker->is & LOADS_OR_STORES) return finds_no_value(it);
    if (it->asker->is & DELETES) return !finds_no_value(it);
    return !(it->asker->is & IS_ENTRY_LOAD);
}

/* A load of Once.done that finds 0 is no event: else two goroutines that come at once, of which one is let in, are a cycle. */
static bool is_nothing(const struct atomic *it) {
    const struct code *asker = it->asker;
    if (asker->asker == NOBODY || asker->asker == MUTEX || aero_is_counter(it->at)) return true;
    if (asker->asker == ONCE) return it->is_load && !it->found;
    return (asker->is & IS_ENTRY) && !it->writes && goes_on(it);
}

/* Returns whether a load of the first word of an atomic.Value finds no type, or the address that stands for a first store under way. */
static bool finds_no_type(const struct atomic *it) {
    static const word nothing, *under_way;
    if (!under_way) under_way = aero_word("sync/atomic.firstStoreInProgress");
    if (!under_way) under_way = &nothing;
    return it->is_load && (!it->found || it->found == (word)under_way);
}

/* Returns whether an operation on the first word of an atomic.Value, which has the type, is the event of the whole call. A Load that finds
 * no type ends there. (The library's own, as that of a context, tries again under a lock, and has no event.) The first store takes the
 * word, stores the value, and then the type, by which others see the value. */
static bool first_word_counts(struct goroutine *t, const struct atomic *it) {
    bool was_boxing = t->is_boxing && t->boxed == it->at;
    t->boxed = it->at;
    t->is_boxing = it->writes && !was_boxing;
    if (it->writes) return was_boxing;
    return (it->asker->is & LOADS) && finds_no_type(it) && !(it->place->is & IS_LIBRARY);
}

/* Returns whether an operation on the second word, which has the value, is the event of the call. The load of a CompareAndSwap isn't: with the
 * swap behind it the one call would be two events. */
static bool second_word_counts(const struct goroutine *t, const struct atomic *it) {
    return !t->is_boxing && !(it->is_load && (it->asker->is & COMPARES));
}

/* Returns whether a Once is one of the standard library, which makes there what it needs. */
static bool is_own_once(const struct atomic *it) { return it->asker->asker == ONCE && (it->place->is & IS_LIBRARY); }

void aero_atomic(struct goroutine *t, const struct atomic *it) {
    struct atomic event = *it;
    if (it->asker->asker == ONCE && (t->is_own_once = is_own_once(it))) return;
    if (is_nothing(it) || aero_is_quiet(t)) return;
    if (it->asker->asker == VALUE) {
        bool is_second = it->at == t->boxed + 8;
        if (!(is_second ? second_word_counts(t, it) : first_word_counts(t, it))) return;
        if (!is_second) event.at += 8;
    }
    if (it->writes && aero_only_reads(it->place)) return;
    aero_atomic_access(t, &event);
}
