/* Reads and writes. Go's hooks of a single access say where it begins, and not how many bytes it has. Its types see to it that
 * accesses which begin at one address are to one variable. So a variable is called by where it begins, and two numbers of four bytes
 * side by side are two.
 *
 * A copy of a struct, or of part of a slice, is an access to each variable in it. Which these are is known for those that were
 * accessed alone before; besides, eight bytes are logged as a whole, X:8. From then on the first write of a part counts as
 * a write of the whole too, and until then a read of it as a read of the whole. If the whole was only written so far, as by `*p = T{}`,
 * a read of it is enough, which puts no order between the first writes of two parts.
 *
 * An atomic operation is one on X.a. If X is accessed both ways, each access counts as one of the other kind too, from its first one of
 * the other kind on: else a look without and a change with sync/atomic wouldn't conflict. If eight bytes were copied before, one of all
 * of them counts as one of the whole, up to the first that writes. (One of four bytes doesn't, for their neighbours' sake.)
 *
 * With AERODROME_GRAIN all accesses to so many bytes are to one variable, atomic operations too. */
#include "log.h"

/* Beside a bit for each part: the eight bytes were accessed as a whole, and read so; the first part, or the fifth one, was accessed by
 * an atomic operation. */
enum { WHOLE = 1 << 8, ATOMIC = 1 << 9, ATOMIC_UPPER = 1 << 10, WHOLE_READ = 1 << 11 };
static char name[512];

static void named(struct goroutine *t, const char *operation, char *end, const struct code *place) {
    *end = 0;
    aero_line(t, operation, name, place);
}

void aero_event(struct goroutine *t, const char *operation, word at, const struct code *place) {
    aero_begin_blocks(t);
    named(t, operation, aero_put_variable(name, at), place);
}

void aero_suffixed(struct goroutine *t, const char *operation, word at, const struct suffix *suffix) {
    aero_begin_blocks(t);
    char *to = aero_put(aero_put_variable(name, at), suffix->text);
    if (suffix->number >= 0) to = aero_put_number(to, (uint64_t)suffix->number, 10);
    named(t, operation, to, suffix->place);
}

static uint16_t atomic_at(word at) { return at & 7 ? (at & 7) == 4 ? ATOMIC_UPPER : 0 : ATOMIC; }

static void by_atomic(struct goroutine *t, const char *operation, word at, const struct code *place) {
    aero_suffixed(t, operation, at, &(struct suffix){".a", -1, place});
}

static void whole(struct goroutine *t, const char *operation, word at, const struct code *place) {
    aero_suffixed(t, operation, at & ~(word)7, &(struct suffix){":8", -1, place});
}

/* ---- by the variables' beginnings */

static void single(struct goroutine *t, const char *operation, word at, const struct code *place) {
    uint16_t *parts = aero_parts(at), part = (uint16_t)(1 << (at & 7));
    bool is_known = !parts || (*parts & part);
    if (!is_known && (*parts & WHOLE)) {
        whole(t, *parts & WHOLE_READ ? operation : "r", at, place);
        if (*operation == 'r') {
            *parts |= WHOLE_READ;
            return;
        }
    }
    if (!is_known) *parts |= part;
    aero_event(t, operation, at, place);
    if (parts && (*parts & atomic_at(at))) by_atomic(t, operation, at, place);
}

/* A unit of eight bytes that a copy has. */
static void unit(struct goroutine *t, const char *operation, word at, const struct code *place) {
    uint16_t *parts = aero_parts(at);
    for (word part = 0; part < 8 && parts; part++) {
        if (*parts >> part & 1) aero_event(t, operation, at + part, place);
        if (*parts & atomic_at(at + part)) by_atomic(t, operation, at + part, place);
    }
    if (parts) *parts |= *operation == 'r' ? WHOLE | WHOLE_READ : WHOLE;
    whole(t, operation, at, place);
}

/* Where a copy has only some of the eight bytes, each of these is one. */
static void range(struct goroutine *t, const char *operation, word at, word bytes, const struct code *place) {
    for (word end = at + bytes, size; at < end && aero_is_on; at += size) {
        size = at & 7 || end - at < 8 ? 1 : 8;
        if (size == 8) unit(t, operation, at, place);
        else single(t, operation, at, place);
    }
}

/* ---- by AERODROME_GRAIN */

/* Where the variable with that byte begins: a global variable is never one with another. */
static word start_of(word at) {
    word grain = (word)aero_settings.grain, start = at & -grain, from, to;
    if (grain > 1 && aero_global(at, &from, &to) && from > start) return from;
    return start;
}

static void grains(struct goroutine *t, const char *operation, word at, word bytes, const struct code *place) {
    word grain = (word)aero_settings.grain;
    for (word one = start_of(at), end = at + bytes, next; one < end && aero_is_on; one = next) {
        aero_event(t, operation, one, place);
        next = (one & -grain) + grain;
        word last = start_of(next - 1);
        if (last > one) next = last;
    }
}

/* ---- the hooks */

/* AERODROME_LOCAL=skip: whether only this goroutine has touched the object so far. */
static bool is_local(const struct goroutine *t, word at) {
    struct object *it = aero_settings.skips_local ? aero_object(at) : NULL;
    if (!it || it->is_shared) return false;
    if (!it->owner) it->owner = t->id;
    it->is_shared = it->owner != t->id;
    return !it->is_shared;
}

void aero_atomic_access(struct goroutine *t, const struct atomic *it) {
    const char *operation = it->writes ? "w" : "r";
    const struct code *place = it->place;
    word at = it->at;
    is_local(t, at);         /* (it counts as a touch, and has a line in any case) */
    if (aero_settings.grain) {
        aero_event(t, operation, start_of(at), place);
        return;
    }
    uint16_t *parts = aero_parts(at);
    by_atomic(t, operation, at, place);
    if (!parts) return;
    bool is_of_whole = it->bytes == 8 && (*parts & WHOLE) && !(*parts & atomic_at(at));
    if (is_of_whole) whole(t, operation, at, place);
    *parts |= is_of_whole && *operation == 'r' ? WHOLE_READ : atomic_at(at);
    if (*parts >> (at & 7) & 1) aero_event(t, operation, at, place);
}

/* Where the program called the function of the runtime. */
static const struct code *outside(const struct goroutine *t, const struct code *code) {
    for (size_t depth = t->depth; (code->is & IS_LOW) && (code->is & IS_RUNTIME) && depth-- > 0;) code = t->frames[depth].call;
    return code;
}

/* Whether the access is to a channel, as a whole: it is closed, or looked at by who sends. */
static bool is_of_channel(const struct access *it) { return it->within && aero_code(it->within)->asker >= CHANNEL_SEND; }

/* Whether a function of the library is at work whose accesses and atomic operations have no events, perhaps by another one of the library. */
bool aero_is_quiet(const struct goroutine *t) {
    for (size_t depth = t->depth; depth-- > 0 && (t->frames[depth].function->is & IS_LIBRARY);)
        if (t->frames[depth].is_quiet || (t->frames[depth].function->is & IS_QUIET)) return true;
    return false;
}

/* bytes: 0 for a single access. What sync and internal/race access is their own, or for the detector alone. */
void aero_access(const struct here *here, struct goroutine *t, const struct access *it) {
    const struct code *code = aero_code(it->code);
    aero_drop_dead(t, here, here->stack);
    const struct code *place = outside(t, code);
    if (((code->is | place->is) & IS_SYNC) || ((code->is & IS_RACE) && !it->bytes) || is_local(t, it->at)) return;
    if ((aero_is_quiet(t) && !is_of_channel(it)) || aero_is_counter(it->at)) return;
    if (*it->operation == 'w' && aero_only_reads(place)) return;
    if (aero_settings.grain) grains(t, it->operation, it->at, it->bytes ? it->bytes : 1, place);
    else if (it->bytes) range(t, it->operation, it->at, it->bytes, place);
    else single(t, it->operation, it->at, place);
}
