/* What the program allocates: new variables, wherever it lies. The functions lead to the next ones of their names behind the program:
 * those of an allocator that it is linked with, or that LD_PRELOAD names, or else of the C library. */
#include "log.h"
#include "memory.h"

#include <dlfcn.h>
#include <malloc.h>
#include <stdlib.h>
#include <string.h>

extern void *__libc_malloc(size_t);

/* ---- before the allocator is known */

/* dlsym may allocate memory itself, while it looks for the function that does. It gets some of these bytes, each piece with its size
 * before it, and they are never used again. */
enum { PIECE = 16 };
static _Alignas(PIECE) char first_bytes[1 << 14];
static atomic_size_t first_used;
static __thread bool is_asking;

static bool is_first(const void *at) { return (uintptr_t)at - (uintptr_t)first_bytes < sizeof first_bytes; }
static size_t size_of_first(const void *at) { return ((const size_t *)at)[-2]; }

static void *take_first(size_t bytes) {
    size_t whole = PIECE + ((bytes + PIECE - 1) & -(size_t)PIECE);
    size_t from = bytes < sizeof first_bytes ? atomic_fetch_add(&first_used, whole) : sizeof first_bytes;
    if (from + whole > sizeof first_bytes) {
        errno = ENOMEM;
        return NULL;
    }
    *(size_t *)(first_bytes + from) = bytes;
    return first_bytes + from + PIECE;
}

static void *ask(const char *name) {
    struct next next = {name, NULL, NULL};
    is_asking = true;
    void *found = aero_next(&next);
    is_asking = false;
    return found;
}

/* `real` becomes the next function of the name. While that is looked for, `meanwhile` is done. */
#define NEXT(result, name, meanwhile, ...) \
    static result (*_Atomic next_##name)(__VA_ARGS__); \
    result (*real)(__VA_ARGS__) = atomic_load_explicit(&next_##name, memory_order_relaxed); \
    if (UNLIKELY(!real)) { \
        if (is_asking) meanwhile; \
        *(void **)&real = ask(#name); \
        atomic_store_explicit(&next_##name, real, memory_order_relaxed); \
    }

/* ---- sizes */

/* What is known of the allocator: whether it tells how large a piece is, and whether a piece that gets smaller stays where it is. */
enum allocator { UNKNOWN, WITHOUT_SIZES, WITH_SIZES, OF_THE_C_LIBRARY };

static const void *object_of(const void *function) {
    Dl_info info;
    return function && dladdr(function, &info) ? info.dli_fbase : NULL;
}

/* A library that has malloc without malloc_usable_size would have its pieces given to that of another one. */
static enum allocator allocator(void) {
    static _Atomic enum allocator known;
    enum allocator it = atomic_load_explicit(&known, memory_order_relaxed);
    if (LIKELY(it != UNKNOWN)) return it;
    if (is_asking) return WITHOUT_SIZES;
    const void *allocates = object_of(ask("malloc")), *tells = object_of(ask("malloc_usable_size"));
    if (allocates == object_of((const void *)__libc_malloc)) it = OF_THE_C_LIBRARY;
    else it = allocates == tells ? WITH_SIZES : WITHOUT_SIZES;
    atomic_store_explicit(&known, it, memory_order_relaxed);
    return it;
}

EXPORT size_t malloc_usable_size(void *at) {
    if (UNLIKELY(is_first(at))) return size_of_first(at);
    NEXT(size_t, malloc_usable_size, return 0, void *)
    return real(at);
}

/* ---- new memory */

static bool is_on(void) { return atomic_load_explicit(&aero_state, memory_order_relaxed) == ON; }

/* Returns where a renewal may end: the C library gives the program nothing up to the next 16 bytes, where its next piece begins. */
static uintptr_t rounded(uintptr_t end) { return allocator() == OF_THE_C_LIBRARY ? (end + 15) & -(uintptr_t)16 : end; }

static void *renewed(void *at, size_t bytes) {
    if (!at || LIKELY(!is_on())) return at;
    size_t room = allocator() == WITHOUT_SIZES ? bytes : malloc_usable_size(at);
    aero_renew((uintptr_t)at, rounded((uintptr_t)at + room));
    return at;
}

#define ALLOCATES(name, meanwhile, size, arguments, ...) \
    EXPORT void *name(__VA_ARGS__) { \
        NEXT(void *, name, return meanwhile, __VA_ARGS__) \
        return renewed(real arguments, size); \
    }
ALLOCATES(malloc, take_first(bytes), bytes, (bytes), size_t bytes)
ALLOCATES(calloc, take_first(count * bytes), count * bytes, (count, bytes), size_t count, size_t bytes)
ALLOCATES(memalign, NULL, bytes, (alignment, bytes), size_t alignment, size_t bytes)
ALLOCATES(aligned_alloc, NULL, bytes, (alignment, bytes), size_t alignment, size_t bytes)
ALLOCATES(valloc, NULL, bytes, (bytes), size_t bytes)
ALLOCATES(pvalloc, NULL, bytes, (bytes), size_t bytes)
EXPORT int posix_memalign(void **to, size_t alignment, size_t bytes) {
    NEXT(int, posix_memalign, return ENOMEM, void **, size_t, size_t)
    int result = real(to, alignment, bytes);
    if (!result) renewed(*to, bytes);
    return result;
}

EXPORT void free(void *at) {
    if (UNLIKELY(is_first(at))) return;
    NEXT(void, free, return, void *)
    real(at);
}

/* ---- memory that moves */

static void *moved_from_first(void *old, size_t bytes) {
    void *at = malloc(bytes);
    size_t there = size_of_first(old);
    if (at) memcpy(at, old, there < bytes ? there : bytes);
    return at;
}

/* Renews the bytes by which memory grows in place. */
static void renew_growth(void *at, size_t room) {
    aero_renew(rounded((uintptr_t)at + room), rounded((uintptr_t)at + malloc_usable_size(at)));
}

/* What stays in place keeps its names, and what it grows by is new. What may move is read before the old place is given back. Where
 * the size of that isn't known, only the writes are logged. */
static void *resized(void *(*real)(void *, size_t), void *old, size_t bytes, uintptr_t code) {
    enum allocator of = allocator();
    size_t room = of == WITHOUT_SIZES ? 0 : malloc_usable_size(old), same = room < bytes ? room : bytes;
    if (bytes > room || of != OF_THE_C_LIBRARY) aero_range("r", (uintptr_t)old, same, code);
    void *at = real(old, bytes);
    if (!at) return NULL;
    if (at != old) aero_range("w", (uintptr_t)renewed(at, bytes), of == WITHOUT_SIZES ? bytes : same, code);
    else if (bytes > room && of != WITHOUT_SIZES) renew_growth(at, room);
    return at;
}
/* Where the program has called reallocarray, which calls realloc, as the program may have one of its own; else 0. */
static __thread volatile uintptr_t array_call;
EXPORT void *realloc(void *old, size_t bytes) {
    if (UNLIKELY(is_first(old))) return moved_from_first(old, bytes);
    NEXT(void *, realloc, return old ? NULL : take_first(bytes), void *, size_t)
    if (!old || !bytes || LIKELY(!is_on())) return renewed(real(old, bytes), bytes);
    return resized(real, old, bytes, array_call ? array_call : HERE);
}
EXPORT void *reallocarray(void *old, size_t count, size_t bytes) {
    size_t all;
    if (__builtin_mul_overflow(count, bytes, &all)) {
        errno = ENOMEM;
        return NULL;
    }
    array_call = HERE;
    void *at = realloc(old, all);
    array_call = 0;
    return at;
}
