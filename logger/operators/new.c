/* operator new of an allocator that a C++ program is linked with, or that LD_PRELOAD names: what it gives is new variables. That of the
 * C++ library calls malloc, which the logger knows already.
 *
 * It is an object of its own. A program that contains the C++ library (-static-libstdc++, libstdc++.a) is linked without this one, which would be
 * found in the place of the library's operator. */
#define _GNU_SOURCE
#include <dlfcn.h>
#include <stdatomic.h>
#include <stdbool.h>
#include <stddef.h>
#include <stdlib.h>

extern void AnnotateNewMemory(const char *file, int line, const volatile void *at, long bytes);

static const void *object_of(const void *function) {
    Dl_info info;
    return function && dladdr(function, &info) ? info.dli_fbase : NULL;
}
/* Whether the operator is in one library with what throws exceptions. */
static bool calls_malloc(void) {
    static atomic_int known;
    if (!known) known = 1 + (object_of(dlsym(RTLD_NEXT, "_Znwm")) == object_of(dlsym(RTLD_NEXT, "__cxa_allocate_exception")));
    return known == 2;
}
static void *renewed(void *at, size_t bytes) {
    if (at && !calls_malloc()) AnnotateNewMemory(NULL, 0, at, (long)bytes);
    return at;
}

/* Without a next operator the program contains the C++ library, and the linker has taken this operator in the place of that one, as mold
 * does with -Wl,-Bstatic,-lstdc++. It may have left out what throws: then the program ends where it has no memory. */
extern void _ZSt17__throw_bad_allocv(void) __attribute__((weak));
static void *or_throw(void *at) {
    if (!at && _ZSt17__throw_bad_allocv) _ZSt17__throw_bad_allocv();
    if (!at) abort();
    return at;
}
static void *some(size_t bytes) { return malloc(bytes ? bytes : 1); }
static void *aligned(size_t bytes, size_t alignment) {
    size_t whole = (bytes + alignment - !!bytes) & -alignment;
    return whole < bytes ? NULL : aligned_alloc(alignment, whole);
}

#define NEW(name, without_next, arguments, ...) \
    __attribute__((visibility("default"), weak)) void *name(__VA_ARGS__) { \
        static void *(*_Atomic next)(__VA_ARGS__); \
        void *(*real)(__VA_ARGS__) = atomic_load_explicit(&next, memory_order_relaxed); \
        if (!real) { \
            *(void **)&real = dlsym(RTLD_NEXT, #name); \
            if (!real) return without_next; \
            atomic_store_explicit(&next, real, memory_order_relaxed); \
        } \
        return renewed(real arguments, bytes); \
    }
NEW(_Znwm, or_throw(some(bytes)), (bytes), size_t bytes)
NEW(_Znam, or_throw(some(bytes)), (bytes), size_t bytes)
NEW(_ZnwmRKSt9nothrow_t, some(bytes), (bytes, none), size_t bytes, const void *none)
NEW(_ZnamRKSt9nothrow_t, some(bytes), (bytes, none), size_t bytes, const void *none)
NEW(_ZnwmSt11align_val_t, or_throw(aligned(bytes, alignment)), (bytes, alignment), size_t bytes, size_t alignment)
NEW(_ZnamSt11align_val_t, or_throw(aligned(bytes, alignment)), (bytes, alignment), size_t bytes, size_t alignment)
NEW(_ZnwmSt11align_val_tRKSt9nothrow_t, aligned(bytes, alignment), (bytes, alignment, none),
    size_t bytes, size_t alignment, const void *none)
NEW(_ZnamSt11align_val_tRKSt9nothrow_t, aligned(bytes, alignment), (bytes, alignment, none),
    size_t bytes, size_t alignment, const void *none)
