/* Memory: plain accesses, ranges, and how often each address was allocated. */
#include "log.h"
#include "memory.h"

#include <errno.h>
#include <stdarg.h>
#include <sys/mman.h>
#include <sys/shm.h>
#include <unistd.h>

/* ---- what is allocated again */

/* How often memory was allocated: for pages, for units of 16 bytes, and, in pages where an object begins or ends within a unit, for
 * pieces of four bytes. The sum of the three counts. A leaf has 2^27 bytes of addresses. */
#define LEAF_BITS 27
#define UNIT_BITS 4
#define PAGE_BITS 12
#define PIECES ((1 << PAGE_BITS) / AERO_PIECE)
struct leaf {
    uint32_t units[1 << (LEAF_BITS - UNIT_BITS)];
    uint32_t pages[1 << (LEAF_BITS - PAGE_BITS)];
    uint16_t parts[1 << (LEAF_BITS - 3)];                /* parts.c */
    unsigned char has_parts[1 << (LEAF_BITS - PAGE_BITS)];    /* USED, and OF_STACK */
    _Atomic(void *) pieces[1 << (LEAF_BITS - PAGE_BITS)];     /* of a page: PIECES counts, or NULL */
};
enum { USED = 1, OF_STACK = 2 };
static _Atomic(void *) leaves[1 << (47 - LEAF_BITS)];
static bool with_fresh;

void aero_memory_start(void) { with_fresh = aero_settings.fresh; }

/* Without them two objects at one address would be one variable. So the log ends. */
static void *refused(void) {
    int before = aero_me.busy;
    bool within = aero_writes();
    aero_me.busy = 1;
    if (!within) aero_lock();
    aero_stop(CUT_MEMORY, "there is no room of addresses for its tables (ulimit -v)");
    if (!within) aero_unlock();
    aero_be_busy_as(before);
    return NULL;
}

static __attribute__((noinline)) void *new_table(_Atomic(void *) *slot, size_t bytes) {
    void *table = NULL, *made = aero_pages(bytes);
    if (UNLIKELY(!made)) return refused();
    if (atomic_compare_exchange_strong(slot, &table, made)) return made;
    aero_free_pages(made, bytes);
    return table;
}

/* (each access comes here) */
static inline struct leaf *leaf_of(uintptr_t address, bool make) {
    if (address >> 47) return NULL;
    _Atomic(void *) *slot = &leaves[address >> LEAF_BITS];
    struct leaf *leaf = atomic_load_explicit(slot, memory_order_acquire);
    return LIKELY(leaf != NULL) || !make ? leaf : new_table(slot, sizeof *leaf);
}

static uint32_t *unit_of(struct leaf *leaf, uintptr_t address) {
    return &leaf->units[address >> UNIT_BITS & ((1 << (LEAF_BITS - UNIT_BITS)) - 1)];
}
static size_t page_at(uintptr_t address) { return address >> PAGE_BITS & ((1 << (LEAF_BITS - PAGE_BITS)) - 1); }
static uint32_t *page_of(struct leaf *leaf, uintptr_t address) { return &leaf->pages[page_at(address)]; }
/* Returns the counts of the page's pieces; NULL if it has none, or memory is refused. */
static uint32_t *pieces_of(struct leaf *leaf, uintptr_t address, bool make) {
    _Atomic(void *) *slot = &leaf->pieces[page_at(address)];
    uint32_t *pieces = atomic_load_explicit(slot, memory_order_acquire);
    return LIKELY(!make) || pieces ? pieces : new_table(slot, PIECES * sizeof *pieces);
}
static size_t piece_of(uintptr_t address) { return address / AERO_PIECE % PIECES; }

static size_t part_of(uintptr_t address) { return address >> 3 & ((1 << (LEAF_BITS - 3)) - 1); }
static unsigned char *has_parts(struct leaf *leaf, uintptr_t address) { return &leaf->has_parts[page_at(address)]; }

uint16_t *aero_parts_at(uintptr_t address) {
    struct leaf *leaf = leaf_of(address, true);
    if (!leaf) return NULL;
    unsigned char *has = has_parts(leaf, address);
    if (*has & OF_STACK && !aero_note_access(address)) *has = USED;
    if (UNLIKELY(!(*has & USED))) *has |= USED;
    return &leaf->parts[part_of(address)];
}

/* Forgets the parts of bytes within a page. */
static void forget_parts(struct leaf *leaf, uintptr_t from, uintptr_t to) {
    if (LIKELY(!(*has_parts(leaf, from) & USED))) return;
    for (; from < to; from += 8) leaf->parts[part_of(from)] = 0;
}

void aero_mark_stack(uintptr_t low, uintptr_t high) {
    for (uintptr_t at = low & -(uintptr_t)(1 << PAGE_BITS); at < high; at += 1 << PAGE_BITS) {
        struct leaf *leaf = leaf_of(at, true);
        if (!leaf) return;
        *has_parts(leaf, at) |= OF_STACK;
    }
}

uint32_t aero_generation(uintptr_t address) {
    struct leaf *leaf = leaf_of(address, false);
    if (!leaf) return 0;
    const uint32_t *pieces = pieces_of(leaf, address, false);
    return *unit_of(leaf, address) + *page_of(leaf, address) + (UNLIKELY(pieces != NULL) ? pieces[piece_of(address)] : 0);
}

uintptr_t aero_step(uintptr_t address) {
    struct leaf *leaf = leaf_of(address, false);
    if (!leaf) return (1 << LEAF_BITS) - (address & ((1 << LEAF_BITS) - 1));
    return pieces_of(leaf, address, false) ? AERO_PIECE : 1 << UNIT_BITS;
}

/* Renews pieces of one unit. */
static void renew_pieces(uintptr_t from, uintptr_t to) {
    struct leaf *leaf = leaf_of(from, true);
    uint32_t *pieces = leaf ? pieces_of(leaf, from, true) : NULL;
    if (!pieces) return;
    for (; from < to; from += AERO_PIECE) {
        ++pieces[piece_of(from)];
        aero_forget_half(&leaf->parts[part_of(from)], from % 8);
    }
}

/* Renews units of one page, or the whole page. */
static void renew_in_page(struct leaf *leaf, uintptr_t from, uintptr_t to) {
    uint32_t *units = unit_of(leaf, from);
    forget_parts(leaf, from, to);
    if (to - from == 1 << PAGE_BITS) {
        ++*page_of(leaf, from);
        *has_parts(leaf, from) &= OF_STACK;
        return;
    }
    for (size_t one = 0; one < (to - from) >> UNIT_BITS; one++) ++units[one];
}

/* A leaf that isn't there, and all of whose addresses are renewed, needs none: nothing was accessed in it. So terabytes that a program
 * only reserves cost nothing. */
static void renew_units(uintptr_t from, uintptr_t to) {
    const uintptr_t page = 1 << PAGE_BITS, most = 1 << LEAF_BITS;
    for (uintptr_t end; from < to; from = end) {
        bool covers = !(from & (most - 1)) && to - from >= most;
        struct leaf *leaf = leaf_of(from, !covers);
        if (!leaf && !covers) return;
        end = leaf ? (from & -page) + page : from + most;
        if (leaf) renew_in_page(leaf, from, end < to ? end : to);
    }
}

/* (Memory of the C library's malloc is whole units.) */
void aero_renew(uintptr_t from, uintptr_t to) {
    const uintptr_t unit = 1 << UNIT_BITS, piece = AERO_PIECE;
    if (!with_fresh || atomic_load_explicit(&aero_state, memory_order_relaxed) != ON || from >= to) return;
    from &= -piece;
    to = (to + piece - 1) & -piece;
    uintptr_t first = (from + unit - 1) & -unit, last = to & -unit;
    if (UNLIKELY(from < first)) renew_pieces(from, first < to ? first : to);
    renew_units(first, last);
    if (UNLIKELY(first <= last && last < to)) renew_pieces(last, to);
}

/* ---- mapped memory */

static size_t whole_pages(size_t bytes) { return (bytes + (1 << PAGE_BITS) - 1) & -((size_t)1 << PAGE_BITS); }
static void renew_pages(const void *at, size_t bytes) { aero_renew((uintptr_t)at, (uintptr_t)at + whole_pages(bytes)); }

EXPORT void *mmap(void *wanted, size_t bytes, int protection, int flags, int file, off_t offset) {
    REAL(void *, mmap, void *, size_t, int, int, int, off_t)
    void *at = real(wanted, bytes, protection, flags, file, offset);
    if (at != MAP_FAILED) renew_pages(at, bytes);
    return at;
}
EXPORT void *mmap64(void *wanted, size_t bytes, int protection, int flags, int file, off64_t offset) {
    return mmap(wanted, bytes, protection, flags, file, offset);
}

/* What was moved, or lies behind what was there, is new variables. */
EXPORT void *mremap(void *old, size_t old_bytes, size_t bytes, int flags, ...) {
    REAL(void *, mremap, void *, size_t, size_t, int, ...)
    va_list list;
    va_start(list, flags);
    void *wanted = flags & MREMAP_FIXED ? va_arg(list, void *) : NULL;
    va_end(list);
    char *at = real(old, old_bytes, bytes, flags, wanted);
    size_t kept = at == old ? whole_pages(old_bytes) : 0;
    if (at != MAP_FAILED && kept < bytes) renew_pages(at + kept, bytes - kept);
    return at;
}

/* Attaches shared memory of System V. (shmdt needs nothing: the next mapping at the address renews it.) */
EXPORT void *shmat(int segment, const void *wanted, int flags) {
    REAL(void *, shmat, int, const void *, int)
    struct shmid_ds now;
    void *at = real(segment, wanted, flags);
    int before = errno;
    if (at != (void *)-1 && !shmctl(segment, IPC_STAT, &now)) renew_pages(at, now.shm_segsz);
    errno = before;
    return at;
}

/* Moves the end of the heap, for a program that does so itself. */
EXPORT void *sbrk(intptr_t bytes) {
    REAL(void *, sbrk, intptr_t)
    void *at = real(bytes);
    if (at != (void *)-1 && bytes > 0) aero_renew((uintptr_t)at, (uintptr_t)at + (uintptr_t)bytes);
    return at;
}
EXPORT int brk(void *end) {
    REAL(int, brk, void *)
    uintptr_t before = (uintptr_t)sbrk(0);
    int result = real(end);
    if (!result) aero_renew(before, (uintptr_t)end);
    return result;
}

/* ---- accesses */

static void access_at(const char *operation, enum access how, uintptr_t address, size_t bytes, uintptr_t code) {
    aero_may_be_cancelled();
    if (!aero_enter()) return;
    aero_lock();
    aero_span(operation, how, address, bytes, code);
    aero_unlock();
    aero_leave();
}

void aero_range(const char *operation, uintptr_t address, size_t bytes, uintptr_t code) {
    const size_t step = 4096;
    if (!bytes || !aero_enter()) return;
    for (uintptr_t end = address + bytes; address < end;) {
        uintptr_t stop = end - address > step ? (address & -step) + step : end;
        aero_lock();
        aero_span(operation, COPY, address, stop - address, code);
        aero_unlock();
        address = stop;
    }
    aero_leave();
}

#define ACCESS(name, operation, how, bytes) \
    EXPORT void name(void *at) { access_at(operation, how, (uintptr_t)at, bytes, HERE); }
#define ACCESS_FROM(name, operation, how, bytes) \
    EXPORT void name(void *at, void *code) { access_at(operation, how, (uintptr_t)at, bytes, (HERE, (uintptr_t)code)); }
#define ACCESSES(kind, how, bytes) \
    ACCESS(__tsan_##kind##read##bytes, "r", how, bytes) \
    ACCESS(__tsan_##kind##write##bytes, "w", how, bytes) \
    ACCESS(__tsan_##kind##read_write##bytes, "w", how, bytes) \
    ACCESS_FROM(__tsan_##kind##read##bytes##_pc, "r", how, bytes) \
    ACCESS_FROM(__tsan_##kind##write##bytes##_pc, "w", how, bytes)
/* Eight bytes that needn't lie as a number does may be two of four bytes, in a structure that is copied. */
#define ALL_ACCESSES(bytes, unaligned) \
    ACCESSES(, PLAIN, bytes) ACCESSES(volatile_, PLAIN, bytes) \
    ACCESSES(unaligned_, unaligned, bytes) ACCESSES(unaligned_volatile_, unaligned, bytes)
ALL_ACCESSES(1, PLAIN)
ALL_ACCESSES(2, PLAIN)
ALL_ACCESSES(4, PLAIN)
ALL_ACCESSES(8, COPY)
ALL_ACCESSES(16, COPY)

EXPORT void __tsan_read_range(void *at, size_t bytes) { aero_range("r", (uintptr_t)at, bytes, HERE); }
EXPORT void __tsan_write_range(void *at, size_t bytes) { aero_range("w", (uintptr_t)at, bytes, HERE); }
EXPORT void __tsan_read_range_pc(void *at, size_t bytes, void *code) { aero_range("r", (uintptr_t)at, bytes, (uintptr_t)code); }
EXPORT void __tsan_write_range_pc(void *at, size_t bytes, void *code) { aero_range("w", (uintptr_t)at, bytes, (uintptr_t)code); }
EXPORT void __tsan_vptr_read(void **at) { access_at("r", PLAIN, (uintptr_t)at, sizeof *at, HERE); }
EXPORT void __tsan_vptr_update(void **at, void *value) {
    (void)value;
    access_at("w", PLAIN, (uintptr_t)at, sizeof *at, HERE);
}
