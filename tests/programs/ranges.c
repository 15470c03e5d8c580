/* A block calls a function of string.h on shared bytes twice, and meanwhile another thread looks at one of them or changes it. The
 * steps are made by pipes, which no log has.
 *
 *   ranges writes NAME    the function writes the bytes, and the other thread reads one: memcpy, memmove or memset, or the same as
 *                         the compilers call it, such as __tsan_memcpy
 *   ranges reads NAME     the function reads the bytes, and the other thread writes one
 *   ranges beside NAME    the function writes the bytes, and the other thread writes the byte behind them
 *   ranges over NAME      the function would write more bytes than there are */
#include "verdicts/steps.h"
#include <pthread.h>
#include <string.h>

enum { BYTES = 64 };
extern void *__tsan_memcpy(void *, const void *, size_t), *__tsan_memmove(void *, const void *, size_t), *__tsan_memset(void *, int, size_t);

static struct {
    char bytes[BYTES];
    volatile char behind;
} shared;
static char own[2 * BYTES];
static const char *way, *name;
static volatile size_t count = BYTES;

UNLOGGED int is(const char *wanted, const char *text) { return !strcmp(wanted, text); }

static void writes(void) {
    if (is(name, "memcpy")) memcpy(shared.bytes, own, count);
    if (is(name, "memmove")) memmove(shared.bytes, own, count);
    if (is(name, "memset")) memset(shared.bytes, 1, count);
    if (is(name, "__tsan_memcpy")) __tsan_memcpy(shared.bytes, own, count);
    if (is(name, "__tsan_memmove")) __tsan_memmove(shared.bytes, own, count);
    if (is(name, "__tsan_memset")) __tsan_memset(shared.bytes, 1, count);
}
static void reads(void) {
    if (is(name, "memcpy")) memcpy(own, shared.bytes, count);
    if (is(name, "memmove")) memmove(own, shared.bytes, count);
    if (is(name, "__tsan_memcpy")) __tsan_memcpy(own, shared.bytes, count);
    if (is(name, "__tsan_memmove")) __tsan_memmove(own, shared.bytes, count);
}

static void calls_it_twice(void) {
    void (*call)(void) = is(way, "reads") ? reads : writes;
    call();
    make(0);
    await(1);
    call();
}

static void *other(void *unused) {
    volatile char *last = &shared.bytes[BYTES - 1];
    await(0);
    if (is(way, "writes")) *last;
    if (is(way, "reads")) *last = 1;
    if (is(way, "beside")) shared.behind = 1;
    make(1);
    return unused;
}

int main(int words, char **word) {
    pthread_t thread;
    if (words < 3) return 2;
    way = word[1];
    name = word[2];
    if (is(way, "over")) count = sizeof shared + 1;
    pthread_create(&thread, NULL, other, NULL);
    calls_it_twice();
    pthread_join(thread, NULL);
    return 0;
}
