/* Atomic operations: each is carried out under the log's lock, between the lines before and behind its own, and as sequentially
 * consistent, whatever order it asks for. The names and types are those that the compilers call. */
#include "log.h"

#include <sched.h>

enum { SEQUENTIAL = __ATOMIC_SEQ_CST };

/* The statement `work`, which an operation on so many bytes at `at` consists of, and its line. */
#define LOGGED(bytes, operation, at, work) \
    aero_may_be_cancelled(); \
    aero_may_stir(); \
    aero_come_from(FRAME); \
    if (!aero_enter()) { work; } \
    else { \
        aero_lock(); \
        bool locks = aero_me.locking.what != NO_LOCK_CALL, gives = UNLIKELY(locks) && aero_gives_back((uintptr_t)(at), HERE); \
        work; \
        if (aero_is_of_condition()) {} \
        else if (LIKELY(!locks) || !(gives || aero_takes((uintptr_t)(at), *(operation) == 'w', HERE))) \
            aero_span(operation, PLAIN, (uintptr_t)(at), bytes, HERE); \
        aero_unlock(); \
        aero_leave(); \
    }

#define FETCH(bits, type, name, call) \
    EXPORT type __tsan_atomic##bits##_##name(volatile type *at, type value, int order) { \
        type old; \
        (void)order; \
        LOGGED(sizeof(type), "w", at, old = call(at, value, SEQUENTIAL)) \
        return old; \
    }
#define COMPARE(bits, type, name, call) \
    EXPORT int __tsan_atomic##bits##_compare_exchange_##name(volatile type *at, type *expected, type value, int order, \
                                                             int failed) { \
        bool done; \
        (void)order, (void)failed; \
        LOGGED(sizeof(type), done ? "w" : "r", at, done = call(at, expected, value, 0, SEQUENTIAL, SEQUENTIAL)) \
        return done; \
    }
/* With the functions of a size, whose names begin so: load_n, store_n, exchange_n, compare_exchange_n and fetch_... */
#define ATOMIC(bits, type, of) \
    EXPORT type __tsan_atomic##bits##_load(const volatile type *at, int order) { \
        type value; \
        (void)order; \
        LOGGED(sizeof(type), "r", at, value = of##load_n(at, SEQUENTIAL)) \
        return value; \
    } \
    EXPORT void __tsan_atomic##bits##_store(volatile type *at, type value, int order) { \
        (void)order; \
        LOGGED(sizeof(type), "w", at, of##store_n(at, value, SEQUENTIAL)) \
    } \
    EXPORT type __tsan_atomic##bits##_compare_exchange_val(volatile type *at, type expected, type value, int order, int failed) { \
        bool done; \
        (void)order, (void)failed; \
        LOGGED(sizeof(type), done ? "w" : "r", at, done = of##compare_exchange_n(at, &expected, value, 0, SEQUENTIAL, SEQUENTIAL)) \
        return expected; \
    } \
    COMPARE(bits, type, strong, of##compare_exchange_n) \
    COMPARE(bits, type, weak, of##compare_exchange_n) \
    FETCH(bits, type, exchange, of##exchange_n) \
    FETCH(bits, type, fetch_add, of##fetch_add) \
    FETCH(bits, type, fetch_sub, of##fetch_sub) \
    FETCH(bits, type, fetch_and, of##fetch_and) \
    FETCH(bits, type, fetch_or, of##fetch_or) \
    FETCH(bits, type, fetch_xor, of##fetch_xor) \
    FETCH(bits, type, fetch_nand, of##fetch_nand)

ATOMIC(8, uint8_t, __atomic_)
ATOMIC(16, uint16_t, __atomic_)
ATOMIC(32, uint32_t, __atomic_)
ATOMIC(64, uint64_t, __atomic_)

/* Of 16 bytes where the machine has a compare-and-swap of them (-mcx16), from which the others are made. */
#ifdef __GCC_HAVE_SYNC_COMPARE_AND_SWAP_16
typedef unsigned __int128 wide;

static bool wide_compare_exchange_n(volatile wide *at, wide *expected, wide value, int weak, int order, int failed) {
    wide found = __sync_val_compare_and_swap(at, *expected, value);
    bool done = found == *expected;
    (void)weak, (void)order, (void)failed;
    *expected = found;
    return done;
}
static wide wide_load_n(const volatile wide *at, int order) {
    wide found = 0;
    wide_compare_exchange_n((volatile wide *)at, &found, 0, 0, order, order);
    return found;
}
#define WIDE(name, new) \
    static wide wide_##name(volatile wide *at, wide value, int order) { \
        wide old = 0; \
        while (!wide_compare_exchange_n(at, &old, new, 0, order, order)) {} \
        return old; \
    }
WIDE(exchange_n, value)
WIDE(fetch_add, old + value)
WIDE(fetch_sub, old - value)
WIDE(fetch_and, old & value)
WIDE(fetch_or, old | value)
WIDE(fetch_xor, old ^ value)
WIDE(fetch_nand, ~(old & value))
static void wide_store_n(volatile wide *at, wide value, int order) { wide_exchange_n(at, value, order); }

ATOMIC(128, wide, wide_)
#define WIDE_NUMBER(each) each(wide, wide_)
#else
#define WIDE_NUMBER(each)
#endif

/* ---- of any number of bytes: what the compilers leave to libatomic, as clang does where a std::atomic has a structure. Bytes that lie as
 * a number of the machine does are changed as one, since other code may do that without a call. Others change here only. */

extern void *__real_memmove(void *, const void *, size_t);
extern int memcmp(const void *, const void *, size_t);
#define NUMBERS(each) \
    each(uint8_t, __atomic_) each(uint16_t, __atomic_) each(uint32_t, __atomic_) each(uint64_t, __atomic_) WIDE_NUMBER(each)
static size_t number_of(size_t bytes, const void *at) { return (uintptr_t)at & (bytes - 1) || bytes & (bytes - 1) ? 0 : bytes; }

static atomic_flag others = ATOMIC_FLAG_INIT;
static void lock_others(void) {
    while (atomic_flag_test_and_set(&others)) sched_yield();
}
static void unlock_others(void) { atomic_flag_clear(&others); }

#define EXCHANGES(type, of) \
    case sizeof(type): { \
        type value; \
        __builtin_memcpy(&value, from, sizeof value); \
        value = of##exchange_n((type *)at, value, SEQUENTIAL); \
        __builtin_memcpy(to, &value, sizeof value); \
        break; \
    }
#define LOADS(type, of) \
    case sizeof(type): { \
        type value = of##load_n((const type *)at, SEQUENTIAL); \
        __builtin_memcpy(to, &value, sizeof value); \
        break; \
    }
#define STORES(type, of) \
    case sizeof(type): { \
        type value; \
        __builtin_memcpy(&value, from, sizeof value); \
        of##store_n((type *)at, value, SEQUENTIAL); \
        break; \
    }
#define COMPARES(type, of) \
    case sizeof(type): { \
        type value, old; \
        __builtin_memcpy(&value, from, sizeof value); \
        __builtin_memcpy(&old, expected, sizeof old); \
        done = of##compare_exchange_n((type *)at, &old, value, 0, SEQUENTIAL, SEQUENTIAL); \
        __builtin_memcpy(expected, &old, sizeof old); \
        break; \
    }
/* The cases of numbers, or else what is done to other bytes. */
#define BY_SIZE(cases, work) \
    switch (number_of(bytes, at)) { \
        NUMBERS(cases) \
    default: \
        lock_others(); \
        work; \
        unlock_others(); \
    }
static void load(size_t bytes, const void *at, void *to) { BY_SIZE(LOADS, __real_memmove(to, at, bytes)) }
static void store(size_t bytes, void *at, const void *from) { BY_SIZE(STORES, __real_memmove(at, from, bytes)) }
static void exchange(size_t bytes, void *at, const void *from, void *to) {
    BY_SIZE(EXCHANGES, __real_memmove(to, at, bytes); __real_memmove(at, from, bytes))
}
static bool compare_exchange(size_t bytes, void *at, void *expected, const void *from) {
    bool done;
    BY_SIZE(COMPARES, done = !memcmp(at, expected, bytes);
            if (done) __real_memmove(at, from, bytes);
            else __real_memmove(expected, at, bytes))
    return done;
}

/* (a compiler knows functions of these names itself, and lets nobody define them) */
EXPORT void aero_atomic_load(size_t bytes, const void *at, void *to, int order) __asm__("__atomic_load");
EXPORT void aero_atomic_store(size_t bytes, void *at, const void *from, int order) __asm__("__atomic_store");
EXPORT void aero_atomic_exchange(size_t bytes, void *at, const void *from, void *to, int order) __asm__("__atomic_exchange");
EXPORT bool aero_atomic_compare_exchange(size_t bytes, void *at, void *expected, const void *from, int order, int failed)
    __asm__("__atomic_compare_exchange");
void aero_atomic_load(size_t bytes, const void *at, void *to, int order) {
    (void)order;
    LOGGED(bytes, "r", at, load(bytes, at, to))
}
void aero_atomic_store(size_t bytes, void *at, const void *from, int order) {
    (void)order;
    LOGGED(bytes, "w", at, store(bytes, at, from))
}
void aero_atomic_exchange(size_t bytes, void *at, const void *from, void *to, int order) {
    (void)order;
    LOGGED(bytes, "w", at, exchange(bytes, at, from, to))
}
bool aero_atomic_compare_exchange(size_t bytes, void *at, void *expected, const void *from, int order, int failed) {
    bool done;
    (void)order, (void)failed;
    LOGGED(bytes, done ? "w" : "r", at, done = compare_exchange(bytes, at, expected, from))
    return done;
}

EXPORT void __tsan_atomic_thread_fence(int order) {
    (void)order;
    __atomic_thread_fence(SEQUENTIAL);
}
EXPORT void __tsan_atomic_signal_fence(int order) {
    (void)order;
    __atomic_signal_fence(SEQUENTIAL);
}
