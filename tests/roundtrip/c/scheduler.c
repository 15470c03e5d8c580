/* The hidden scheduler of generated programs: one counter says whose turn it is. If STAGE_MARKS is set, each turn adds a line to
 * the log, `w(stage_marks+BYTE)`, by a direct call of a hook. The mark of each step has eight bytes of its own, so no AERODROME_GRAIN
 * makes two of them one. */
#define _GNU_SOURCE
#include "scheduler.h"

#include <execinfo.h>
#include <linux/futex.h>
#include <signal.h>
#include <stdatomic.h>
#include <stdio.h>
#include <stdlib.h>
#include <string.h>
#include <sys/syscall.h>
#include <time.h>
#include <unistd.h>

extern void __tsan_write1(void *) __attribute__((weak));
unsigned char stage_marks[1 << 17];
static atomic_int current;
static atomic_int marked = -1;

static void fail(const char *reason, int number) {
    char text[100];
    int length = snprintf(text, sizeof text, "scheduler: %s %d\n", reason, number);
    if (write(2, text, (size_t)length) < 0) _exit(98);
    _exit(97);
}

/* Waits, in vain for at most five minutes. */
void stage_turn(int step) {
    const struct timespec second = {1, 0};
    int seconds = 0;
    for (int tries = 0; current != step; tries++) {
        int now = current;
        if (now > step) fail("this step has passed:", step);
        if (now == step) break;
        if (tries < 20) {
            syscall(SYS_sched_yield);
        } else if (syscall(SYS_futex, &current, FUTEX_WAIT_PRIVATE, now, &second, NULL, 0) && current == now && ++seconds > 300) {
            fail("no turn of step", step);
        }
    }
    if (marked < 0) marked = getenv("STAGE_MARKS") != NULL;
    if (marked && __tsan_write1) __tsan_write1(stage_marks + 8 * step);
}
void stage_done(int step) {
    current = step + 1;
    syscall(SYS_futex, &current, FUTEX_WAKE_PRIVATE, 1 << 30, NULL, NULL, 0);
}

/* Where each thing was, from which step to which. */
static struct place {
    const char *kind;
    int number, from, to;
    void *at;
    size_t size;
} places[4096];
static int place_count;
static void *now_at[2048];

static void add_place(const char *kind, int number, void *at, size_t size) {
    places[place_count++] = (struct place){kind, number, current, 1 << 30, at, size};
}
void stage_put(int variable, const volatile void *at, size_t size) {
    add_place("x", variable, (void *)at, size);
    now_at[variable] = (void *)at;
}
void *stage_at(int variable) { return now_at[variable]; }
static void end_place(const char *kind, int number) {
    for (int one = 0; one < place_count; one++)
        if (!strcmp(places[one].kind, kind) && places[one].number == number && places[one].to == 1 << 30) places[one].to = current;
}
void stage_remove(int variable) { end_place("x", variable); }
void stage_bytes(int number, const volatile void *at) {
    end_place("bytes", number);
    add_place("bytes", number, (void *)at, 24);
    now_at[1900 + number] = (void *)at;
}
void stage_gone(int number) { end_place("bytes", number); }
char stage_pool[1200] __attribute__((aligned(16)));
void stage_thing(const char *kind, int number, const volatile void *at) { add_place(kind, number, (void *)at, 1); }
void stage_finish(int steps) {
    const char *path = getenv("STAGE_TABLE");
    FILE *file = path ? fopen(path, "w") : NULL;
    stage_turn(steps);
    if (!file) return;
    fprintf(file, "marks 0 %lu 0 0 0\n", (unsigned long)stage_marks);
    for (struct place *one = places; one < places + place_count; one++)
        fprintf(file, "%s %d %lu %zu %d %d\n", one->kind, one->number, (unsigned long)one->at, one->size, one->from, one->to);
    fclose(file);
}

static atomic_long any = 1;
static char source[8192];
static __thread char scratch[8192];
static atomic_int flags[1 << 14];
long stage_any(void) { return any = any * 3 & 127; }
size_t stage_same(size_t number) { return number; }
void stage_use(long value) { (void)value; }
void stage_use_real(double value) { (void)value; }
void stage_see(const volatile void *at) { (void)at; }
void *stage_pass(void *at) { return at; }
/* (by single bytes, since a memset here would be logged) */
char *stage_text(void *at, size_t length) {
    volatile char *to = (volatile char *)at;
    for (size_t byte = 0; byte < length; byte++) to[byte] = 'x';
    to[length] = 0;
    return (char *)at;
}
void *stage_source(void) { return source + 8; }
void *stage_scratch(void) { return scratch + 8; }
void stage_flag(int number) { flags[number] = 1; }
int stage_flagged(int number) { return flags[number]; }
/* (the C library counts them in the first bytes of a barrier) */
void stage_arrived(const volatile void *barrier, unsigned count) {
    while (*(const volatile unsigned *)barrier < count) syscall(SYS_sched_yield);
}
void stage_wait(int number) {
    const struct timespec some_time = {0, 20000};
    while (!flags[number]) syscall(SYS_sched_yield);
    nanosleep(&some_time, NULL);
}
long stage_peek(const volatile void *at, size_t size) {
    long value = 0;
    memcpy(&value, (const void *)at, size < sizeof value ? size : sizeof value);
    return value;
}
void stage_unwind(void) {
    void *found[4];
    backtrace(found, 4);
}
void *stage_stack(int thread) {
    static char stacks[8][1 << 17] __attribute__((aligned(4096)));
    return stacks[thread];
}

/* Calls of logged code by code without hooks. */
static __thread void (*called)(void);
static void on_signal(int number) {
    (void)number;
    called();
}
void stage_in_signal(void (*call)(void)) {
    called = call;
    if (signal(SIGUSR1, on_signal) == SIG_ERR || raise(SIGUSR1)) fail("no signal", 0);
}
static int on_compare(const void *one, const void *other) {
    (void)one, (void)other;
    if (called) called();
    called = NULL;
    return 0;
}
void stage_in_sort(void (*call)(void)) {
    int two[2] = {1, 2};
    called = call;
    qsort(two, 2, sizeof *two, on_compare);
}

#define DEFINE(type) \
    struct type stage_make_##type(void) { \
        struct type it; \
        memset(&it, (int)stage_any(), sizeof it); \
        return it; \
    } \
    void stage_take_##type(struct type it) { stage_see(&it); }
#define DEFINE_BYTES(n) DEFINE(bytes##n)
#define DEFINE_INTS(n) DEFINE(ints##n)
EACH_SIZE(DEFINE_BYTES)
EACH_COUNT(DEFINE_INTS)
DEFINE(mixed)
DEFINE(longs)
DEFINE(floats)
