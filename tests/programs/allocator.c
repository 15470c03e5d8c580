/* A library that allocates, as jemalloc does: it ends the program where it is given back what isn't its own. WITHOUT_SIZES leaves out what
 * such a library may leave to the C library. With SMALL it has pieces of eight bytes, side by side. */
#define _GNU_SOURCE
#include <stddef.h>
#include <stdint.h>
#include <string.h>
#include <unistd.h>

static _Alignas(4096) char heap[1 << 24];
static size_t used;
static void *last;

static void die(void) {
    static const char text[] = "allocator: this isn't mine\n";
    if (write(2, text, sizeof text - 1)) _exit(99);
    _exit(99);
}
#ifdef SMALL
static _Alignas(16) struct piece {
    char bytes[8];
} pieces[1 << 12];
static size_t pieces_used;
static int is_piece(void *at) { return (uintptr_t)at - (uintptr_t)pieces < sizeof pieces; }
#endif
static size_t size_of(void *at) {
#ifdef SMALL
    if (is_piece(at)) return sizeof *pieces;
#endif
    if ((uintptr_t)at - (uintptr_t)heap >= sizeof heap) die();
    return ((size_t *)at)[-2];
}
/* What was given back last is given again, if it is as large. */
static void *take(size_t alignment, size_t bytes) {
#ifdef SMALL
    if (bytes <= sizeof *pieces && alignment <= 16) return &pieces[__atomic_fetch_add(&pieces_used, 1, __ATOMIC_SEQ_CST) % (1 << 12)];
#endif
    void *again = __atomic_exchange_n(&last, NULL, __ATOMIC_SEQ_CST);
    bytes = (bytes + 15) & ~(size_t)15;
    if (again && size_of(again) == bytes && !((uintptr_t)again & (alignment - 1))) return again;
    if (again) __atomic_store_n(&last, again, __ATOMIC_SEQ_CST);
    size_t from = __atomic_fetch_add(&used, bytes + alignment + 16, __ATOMIC_SEQ_CST);
    if (from + bytes + alignment + 16 > sizeof heap) return NULL;
    char *at = (char *)(((uintptr_t)heap + from + 16 + alignment - 1) & -(uintptr_t)alignment);
    ((size_t *)at)[-2] = bytes;
    return at;
}

void *malloc(size_t bytes) { return take(16, bytes); }
void *memalign(size_t alignment, size_t bytes) { return take(alignment, bytes); }
void *aligned_alloc(size_t alignment, size_t bytes) { return take(alignment, bytes); }
void *valloc(size_t bytes) { return take(4096, bytes); }
void *pvalloc(size_t bytes) { return take(4096, bytes); }
int posix_memalign(void **to, size_t alignment, size_t bytes) { return (*to = take(alignment, bytes)) ? 0 : 12; }
void *calloc(size_t count, size_t bytes) {
    void *at = take(16, count * bytes);
    return at ? memset(at, 0, count * bytes) : NULL;
}
void free(void *at) {
    if (!at) return;
    size_of(at);
    __atomic_store_n(&last, at, __ATOMIC_SEQ_CST);
}
/* It always moves. */
void *realloc(void *old, size_t bytes) {
    void *at = take(16, bytes);
    size_t there = old ? size_of(old) : 0;
    if (!at || !old) return at;
    memcpy(at, old, there < bytes ? there : bytes);
    free(old);
    return at;
}
#ifndef WITHOUT_SIZES
size_t malloc_usable_size(void *at) { return at ? size_of(at) : 0; }
#endif
