/* Calls each hook of the compilers by hand, also those that the compiler of this program doesn't call. Each hook has a variable of
 * its own, whose name is that of the hook behind `at_`.
 *
 *   hooks accesses   every access, of its size
 *   hooks readers    a thread reads what a hook orders between two reads of another's block: __tsan_acquire
 *   hooks release    the same, but that the thread between them releases: __tsan_release */
#include <pthread.h>
#include <stddef.h>
#include <string.h>
#include <unistd.h>

#define HOOK(name) \
    static _Alignas(16) char at_##name[16]; \
    extern void __tsan_##name(void *);
#define HOOK_PC(name) \
    static _Alignas(16) char at_##name##_pc[16]; \
    extern void __tsan_##name##_pc(void *, void *);
#define EACH_SIZE(on, kind) on(kind##1) on(kind##2) on(kind##4) on(kind##8) on(kind##16)
#define EACH_KIND(on, operation) \
    EACH_SIZE(on, operation) EACH_SIZE(on, volatile_##operation) \
    EACH_SIZE(on, unaligned_##operation) EACH_SIZE(on, unaligned_volatile_##operation)
#define PLAIN(on) EACH_KIND(on, read) EACH_KIND(on, write) EACH_KIND(on, read_write)
#define WITH_PLACE(on) EACH_KIND(on, read) EACH_KIND(on, write)
PLAIN(HOOK)
WITH_PLACE(HOOK_PC)

static _Alignas(16) char at_read_range5[16], at_write_range5[16], at_read_range5_pc[16], at_write_range5_pc[16];
static _Alignas(16) char at_vptr_read8[16], at_vptr_write8[16];
static char here, order;
static int go[2], gone[2];
extern void __tsan_read_range(void *, size_t), __tsan_write_range(void *, size_t);
extern void __tsan_read_range_pc(void *, size_t, void *), __tsan_write_range_pc(void *, size_t, void *);
extern void __tsan_vptr_read(void *), __tsan_vptr_update(void *, void *);
extern void __tsan_acquire(void *), __tsan_release(void *);

#define CALL(name) __tsan_##name(at_##name);
#define CALL_PC(name) __tsan_##name##_pc(at_##name##_pc, &here);
__attribute__((no_sanitize("thread"))) static void call_each(void) {
    PLAIN(CALL)
    WITH_PLACE(CALL_PC)
    __tsan_read_range(at_read_range5, 5);
    __tsan_write_range(at_write_range5, 5);
    __tsan_read_range_pc(at_read_range5_pc, 5, &here);
    __tsan_write_range_pc(at_write_range5_pc, 5, &here);
    __tsan_vptr_read(at_vptr_read8);
    __tsan_vptr_update(at_vptr_write8, NULL);
}

static void pass(int *by) {
    if (write(by[1], "", 1) != 1) _exit(2);
}
static void await(int *by) {
    char byte;
    if (read(by[0], &byte, 1) != 1) _exit(2);
}
static void acquire_twice(void) {
    __tsan_acquire(&order);
    pass(go);
    await(gone);
    __tsan_acquire(&order);
}
static void *between(void *hook) {
    await(go);
    ((void (*)(void *))hook)(&order);
    pass(gone);
    return hook;
}
static int meet(void (*hook)(void *)) {
    pthread_t other;
    if (pipe(go) || pipe(gone)) return 2;
    pthread_create(&other, NULL, between, (void *)hook);
    acquire_twice();
    pthread_join(other, NULL);
    return 0;
}

int main(int words, char **word) {
    const char *which = words > 1 ? word[1] : "";
    if (!strcmp(which, "readers")) return meet(__tsan_acquire);
    if (!strcmp(which, "release")) return meet(__tsan_release);
    call_each();
    return 0;
}
