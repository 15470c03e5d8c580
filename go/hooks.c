/* The functions of the race detector's library, by their names there; aerodrome-go gives them names of their own. runtime/race_amd64.s
 * calls them on the stack of g0, and leaves in r12 the stack pointer that the goroutine had, in r14 its g, and in rbp the frame of the Go
 * function that called. An entry in assembly puts these down, and hands their address on as the fifth argument. No Go code runs
 * meanwhile. */
#include "log.h"

/* (the stack was a multiple of 16 before the call, and is one again) */
#define ENTRY(name, function) \
    __asm__(".text\n.globl " #name "\n.type " #name ", @function\n" #name ":\n" \
            "push %rbp\npush %r14\npush %r12\nmov %rsp, %r8\n" \
            "call " #function "\nadd $24, %rsp\nret\n.size " #name ", .-" #name "\n");

/* A hook: does `work` under the lock, if the program is logged. */
#define UNDER_LOCK(condition, work) \
    do { \
        if (!aero_is_on || !(condition)) return; \
        aero_lock(); \
        if (aero_is_on) { work; } \
        aero_unlock(); \
    } while (0)
typedef const struct here *place_t;

/* ---- functions */

static bool has_begun;       /* before that the program's tables can't be read */

ENTRY(__tsan_func_enter, aero_hook_enter)
void aero_hook_enter(struct goroutine *t, word call_ends, word u, word v, place_t here) {
    (void)u, (void)v;
    UNDER_LOCK(t, has_begun = true; aero_enter(here, t, call_ends));
}
ENTRY(__tsan_func_exit, aero_hook_exit)
void aero_hook_exit(struct goroutine *t, word u, word v, word w, place_t here) {
    (void)u, (void)v, (void)w;
    UNDER_LOCK(t, aero_exit(here, t));
}

/* ---- accesses */

static void accessed(place_t here, struct goroutine *t, const struct access *it) {
    UNDER_LOCK(t && !aero_is_own_stack(here, it->at), aero_access(here, t, it));
}
ENTRY(__tsan_read, aero_hook_read)
void aero_hook_read(struct goroutine *t, word at, word code, word u, place_t here) {
    (void)u;
    accessed(here, t, &(struct access){"r", at, 0, code, 0});
}
ENTRY(__tsan_write, aero_hook_write)
void aero_hook_write(struct goroutine *t, word at, word code, word u, place_t here) {
    (void)u;
    accessed(here, t, &(struct access){"w", at, 0, code, 0});
}
ENTRY(__tsan_read_pc, aero_hook_read_pc)
void aero_hook_read_pc(struct goroutine *t, word at, word call, word code, place_t here) {
    accessed(here, t, &(struct access){"r", at, 0, call ? call : code, code});
}
ENTRY(__tsan_write_pc, aero_hook_write_pc)
void aero_hook_write_pc(struct goroutine *t, word at, word call, word code, place_t here) {
    accessed(here, t, &(struct access){"w", at, 0, call ? call : code, code});
}
ENTRY(__tsan_read_range, aero_hook_read_range)
void aero_hook_read_range(struct goroutine *t, word at, word bytes, word code, place_t here) {
    if (bytes) accessed(here, t, &(struct access){"r", at, bytes, code, 0});
}
ENTRY(__tsan_write_range, aero_hook_write_range)
void aero_hook_write_range(struct goroutine *t, word at, word bytes, word code, place_t here) {
    if (bytes) accessed(here, t, &(struct access){"w", at, bytes, code, 0});
}

/* ---- order */

static void ordered(place_t here, struct goroutine *t, word at, enum order how) {
    UNDER_LOCK(t && !t->ignores, aero_order(here, t, at, how));
}
#define ORDER(name, hook, how) \
    ENTRY(name, hook) \
    void hook(struct goroutine *t, word at, word u, word v, place_t here) { \
        (void)u, (void)v; \
        ordered(here, t, at, how); \
    }
ORDER(__tsan_acquire, aero_hook_acquire, ACQUIRE)
ORDER(__tsan_release, aero_hook_release, RELEASE)
ORDER(__tsan_release_merge, aero_hook_release_merge, MERGE)
ORDER(__tsan_release_acquire, aero_hook_release_acquire, RELEASE_ACQUIRE)

EXPORT void __tsan_go_ignore_sync_begin(struct goroutine *t) { t->ignores++; }
EXPORT void __tsan_go_ignore_sync_end(struct goroutine *t) { t->ignores--; }

/* ---- atomic operations; their operands and results lie one behind the other from `a` on, the address first */

/* Whether the operation is to be logged; then the lock is taken, and `it` has who asked. */
static bool begins_atomic(place_t here, struct goroutine *t, word call, struct atomic *it) {
    struct code *place;
    if (!aero_is_on || !t || t->ignores || aero_is_own_stack(here, it->at)) return false;
    aero_lock();
    if (!aero_is_on) return true;
    aero_drop_dead(t, here, here->stack);
    it->asker = aero_asked(here, call, &place);
    it->place = place;
    return true;
}
static void ends_atomic(struct goroutine *t, bool is_logged, const struct atomic *it) {
    if (is_logged && aero_is_on && it->asker) aero_atomic(t, it);
    if (is_logged) aero_unlock();
}
#define AT(type, offset) (*(type *)(a + (offset)))
#define ATOMIC(name, work, does_write) \
    ENTRY(__tsan_go_atomic##name, aero_atomic##name) \
    void aero_atomic##name(struct goroutine *t, word call, word code, char *a, place_t here) { \
        struct atomic it = {.at = AT(word, 0), .bytes = *#name == '6' ? 8 : 4}; \
        bool is_logged = begins_atomic(here, t, call, &it); \
        (void)code; \
        work; \
        it.writes = (does_write); \
        ends_atomic(t, is_logged, &it); \
    }
#define IN_ORDER __ATOMIC_SEQ_CST
#define FETCH(bits, type, what) \
    ATOMIC(bits##_fetch_##what, AT(type, 16) = __atomic_fetch_##what((type *)it.at, AT(type, 8), IN_ORDER), 1)
/* new, done: where a compare-and-swap has the new value, and puts whether it has swapped. */
#define ATOMICS(bits, type, new, done) \
    ATOMIC(bits##_load, it.is_load = true; it.found = AT(type, 8) = __atomic_load_n((type *)it.at, IN_ORDER), 0) \
    ATOMIC(bits##_store, __atomic_store_n((type *)it.at, AT(type, 8), IN_ORDER), 1) \
    ATOMIC(bits##_exchange, AT(type, 16) = __atomic_exchange_n((type *)it.at, AT(type, 8), IN_ORDER), 1) \
    FETCH(bits, type, add) FETCH(bits, type, and) FETCH(bits, type, or) \
    ATOMIC(bits##_compare_exchange, \
           type old = AT(type, 8); \
           AT(uint8_t, done) = __atomic_compare_exchange_n((type *)it.at, &old, AT(type, new), 0, IN_ORDER, IN_ORDER), \
           AT(uint8_t, done))
ATOMICS(32, uint32_t, 12, 16)
ATOMICS(64, uint64_t, 16, 24)

/* ---- goroutines */

ENTRY(__tsan_go_start, aero_hook_start)
void aero_hook_start(struct goroutine *parent, struct goroutine **made, word at, word u, place_t here) {
    (void)u, (void)here;
    aero_lock();
    *made = aero_goroutine();
    if (aero_is_on) aero_started(parent, *made, at);
    aero_unlock();
}
ENTRY(__tsan_go_end, aero_hook_end)
void aero_hook_end(struct goroutine *t, word u, word v, word w, place_t here) {
    (void)u, (void)v, (void)w, (void)here;
    aero_lock();
    aero_ended(t);
    aero_unlock();
}

/* ---- memory */

ENTRY(__tsan_malloc, aero_hook_malloc)
void aero_hook_malloc(struct goroutine *t, word code, word at, word bytes, place_t here) {
    (void)t, (void)code;
    UNDER_LOCK(has_begun, aero_allocated(here, at, bytes));
}
EXPORT void __tsan_free(word at, word bytes) { UNDER_LOCK(has_begun, aero_freed(at, bytes)); }
EXPORT void __tsan_map_shadow(word at, word bytes) { UNDER_LOCK(1, aero_globals(at, bytes)); }

/* ---- nothing to do */

EXPORT void __tsan_finalizer_goroutine(struct goroutine *t) { (void)t; }
EXPORT void __tsan_proc_create(void **made) { *made = NULL; }
EXPORT void __tsan_proc_destroy(void *made) { (void)made; }
EXPORT void __tsan_report_count(uint64_t *count) { *count = 0; }
