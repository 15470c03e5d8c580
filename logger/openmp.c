/* OpenMP, as gcc compiles it: its library waits by itself, so what it orders is logged where the program calls it.
 *
 *   critical, atomic by a lock, omp_set_lock and the like    acq(X), rel(X)
 *   a team of threads (parallel)    w(omp.TEAM) before it, r(omp.TEAM) by each of its threads; w(done.TEAM) at the end of each,
 *                                   r(done.TEAM) behind it
 *   a barrier, the end of for and of sections, copyprivate    w(bar.TEAM) before it, r(bar.TEAM) after it
 *   a task                          w(task.K) where it is made and where it ends, r(task.K) where it begins; taskwait reads
 *                                   those of the tasks that were made since
 *
 * The order by taskloop, depend, taskgroup's inner tasks, reduction(task), ordered, and by a barrier that waits for tasks isn't logged. */
#include "log.h"

#include <stdbool.h>
#include <stdio.h>
#include <string.h>

/* These names stand in the log. */
char aero_omp_critical[8], aero_omp_atomic[8];

typedef void (*body_type)(void *);

/* ---- tasks that are waited for */

extern void *__libc_malloc(size_t);
extern void __libc_free(void *);

struct child {
    int number;
    struct child *next;
};
static __thread struct child *children;      /* of the task that the thread runs */
static atomic_int last_task;

static void task_line(const char *operation, int number, uintptr_t code) {
    char name[24];
    snprintf(name, sizeof name, "%d", number);
    if (!aero_enter()) return;
    aero_lock();
    aero_line(operation, "task.", 0, name, code);
    aero_unlock();
    aero_leave();
}

static void forget_children(struct child *all) {
    for (struct child *next; all; all = next) {
        next = all->next;
        __libc_free(all);
    }
}

/* ---- teams */

struct team {
    body_type body;
    void *with;
};
static __thread struct team *mine;

static void run_member(void *given) {
    struct team *team = given, *before = mine;
    struct child *around = children;
    mine = team;
    children = NULL;
    aero_event("r", "omp.", (uintptr_t)team, 0);
    team->body(team->with);
    aero_event("w", "done.", (uintptr_t)team, 0);
    forget_children(children);
    children = around;
    mine = before;
}

#define PARALLEL(name, arguments, ...) \
    EXPORT void name(body_type body, void *with, __VA_ARGS__) { \
        REAL(void, name, body_type, void *, __VA_ARGS__) \
        struct team team = {body, with}; \
        aero_event("w", "omp.", (uintptr_t)&team, HERE); \
        real(run_member, &team, PARALLEL_##arguments); \
        aero_event("r", "done.", (uintptr_t)&team, HERE); \
    }
#define PARALLEL_PLAIN threads, flags
#define PARALLEL_SECTIONS threads, count, flags
#define PARALLEL_LOOP threads, start, end, step, flags
#define PARALLEL_CHUNKS threads, start, end, step, chunk, flags
#define LOOP unsigned threads, long start, long end, long step
PARALLEL(GOMP_parallel, PLAIN, unsigned threads, unsigned flags)
PARALLEL(GOMP_parallel_sections, SECTIONS, unsigned threads, unsigned count, unsigned flags)
PARALLEL(GOMP_parallel_loop_static, CHUNKS, LOOP, long chunk, unsigned flags)
PARALLEL(GOMP_parallel_loop_dynamic, CHUNKS, LOOP, long chunk, unsigned flags)
PARALLEL(GOMP_parallel_loop_guided, CHUNKS, LOOP, long chunk, unsigned flags)
PARALLEL(GOMP_parallel_loop_nonmonotonic_dynamic, CHUNKS, LOOP, long chunk, unsigned flags)
PARALLEL(GOMP_parallel_loop_nonmonotonic_guided, CHUNKS, LOOP, long chunk, unsigned flags)
PARALLEL(GOMP_parallel_loop_runtime, LOOP, LOOP, unsigned flags)
PARALLEL(GOMP_parallel_loop_nonmonotonic_runtime, LOOP, LOOP, unsigned flags)
PARALLEL(GOMP_parallel_loop_maybe_nonmonotonic_runtime, LOOP, LOOP, unsigned flags)

static void barrier(const char *operation, uintptr_t code) {
    if (mine) aero_event(operation, "bar.", (uintptr_t)mine, code);
}
#define BARRIER(name) \
    EXPORT void name(void) { \
        REAL(void, name, void) \
        barrier("w", HERE); \
        real(); \
        barrier("r", HERE); \
    }
BARRIER(GOMP_barrier)
BARRIER(GOMP_loop_end)
BARRIER(GOMP_sections_end)

/* Who is cancelled there hasn't waited for the others. */
#define BARRIER_OR_CANCELLED(name) \
    EXPORT bool name(void) { \
        REAL(bool, name, void) \
        barrier("w", HERE); \
        bool is_cancelled = real(); \
        if (!is_cancelled) barrier("r", HERE); \
        return is_cancelled; \
    }
BARRIER_OR_CANCELLED(GOMP_barrier_cancel)
BARRIER_OR_CANCELLED(GOMP_loop_end_cancel)
BARRIER_OR_CANCELLED(GOMP_sections_end_cancel)

/* copyprivate: one thread, which gets NULL, runs the block. Then all meet, and the others get what it hands to them. */
EXPORT void *GOMP_single_copy_start(void) {
    REAL(void *, GOMP_single_copy_start, void)
    barrier("w", HERE);
    void *given = real();
    if (given) barrier("r", HERE);
    return given;
}
EXPORT void GOMP_single_copy_end(void *given) {
    REAL(void, GOMP_single_copy_end, void *)
    barrier("w", HERE);
    real(given);
    barrier("r", HERE);
}

/* ---- locks */

#define TAKE(name, arguments, at, ...) \
    EXPORT void name(__VA_ARGS__) { \
        REAL(void, name, __VA_ARGS__) \
        real arguments; \
        aero_acquired((uintptr_t)at, MUTEX, HERE); \
    }
#define GIVE(name, arguments, at, ...) \
    EXPORT void name(__VA_ARGS__) { \
        REAL(void, name, __VA_ARGS__) \
        aero_releasing((uintptr_t)at, HERE); \
        real arguments; \
    }
#define TRY(name) \
    EXPORT int name(void *lock) { \
        REAL(int, name, void *) \
        int taken = real(lock); \
        if (taken) aero_acquired((uintptr_t)lock, MUTEX, HERE); \
        return taken; \
    }
TAKE(GOMP_critical_start, (), aero_omp_critical, void)
GIVE(GOMP_critical_end, (), aero_omp_critical, void)
TAKE(GOMP_critical_name_start, (name), name, void **name)
GIVE(GOMP_critical_name_end, (name), name, void **name)
TAKE(GOMP_atomic_start, (), aero_omp_atomic, void)
GIVE(GOMP_atomic_end, (), aero_omp_atomic, void)
TAKE(omp_set_lock, (lock), lock, void *lock)
GIVE(omp_unset_lock, (lock), lock, void *lock)
TAKE(omp_set_nest_lock, (lock), lock, void *lock)
GIVE(omp_unset_nest_lock, (lock), lock, void *lock)
TRY(omp_test_lock)
TRY(omp_test_nest_lock)

/* ---- tasks */

/* What a task is given, in a copy that the task itself frees. */
struct task {
    body_type body;
    int number;
    char *data;
};

static void run_task(void *given) {
    struct task *task = *(struct task **)given;
    struct child *around = children;
    children = NULL;
    task_line("r", task->number, 0);
    task->body(task->data);
    task_line("w", task->number, 0);
    forget_children(children);
    children = around;
    __libc_free(task);
}

static struct task *new_task(body_type body, void *data, void (*copy)(void *, void *), size_t size, size_t alignment) {
    struct task *task = __libc_malloc(sizeof *task + size + alignment);
    struct child *child = __libc_malloc(sizeof *child);
    if (!task || !child) {
        __libc_free(task);
        __libc_free(child);
        return NULL;
    }
    uintptr_t at = (uintptr_t)(task + 1) + alignment - 1;
    *task = (struct task){body, atomic_fetch_add(&last_task, 1) + 1, (char *)(at & -alignment)};
    *child = (struct child){task->number, children};
    children = child;
    if (copy) copy(task->data, data);
    else memcpy(task->data, data, size);
    return task;
}

/* It has its event in its data, so these can't be others. */
enum { DETACHED = 1 << 13 };

#define TASK(name) \
    void name(body_type body, void *data, void (*copy)(void *, void *), long size, long alignment, bool is_new, unsigned flags, \
              void **depends, int priority, void *event)
EXPORT TASK(GOMP_task) {
    REAL(void, GOMP_task, body_type, void *, void (*)(void *, void *), long, long, bool, unsigned, void **, int, void *)
    bool is_logged = atomic_load(&aero_state) == ON && !(flags & DETACHED);
    struct task *task = is_logged ? new_task(body, data, copy, (size_t)size, alignment > 0 ? (size_t)alignment : 1) : NULL;
    if (!task) {
        real(body, data, copy, size, alignment, is_new, flags, depends, priority, event);
        return;
    }
    task_line("w", task->number, HERE);
    real(run_task, &task, NULL, sizeof task, _Alignof(struct task *), is_new, flags, depends, priority, event);
}

static void wait_for_children(uintptr_t code) {
    for (const struct child *one = children; one; one = one->next) task_line("r", one->number, code);
    forget_children(children);
    children = NULL;
}
#define TASKS_END(name) \
    EXPORT void name(void) { \
        REAL(void, name, void) \
        real(); \
        wait_for_children(HERE); \
    }
TASKS_END(GOMP_taskwait)
TASKS_END(GOMP_taskgroup_end)
