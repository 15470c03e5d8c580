/* A team of four threads, as gcc compiles OpenMP.
 *
 *   openmp locks      each adds under a critical section, one with a name, a lock of omp.h, and by an atomic operation that
 *                     needs a lock
 *   openmp tries      a lock that the others find taken, and one that is taken twice
 *   openmp barrier    each writes a place of its own, and behind a barrier reads that of the next one, in a block each
 *   openmp ends       a loop and sections within a team, which each end with a barrier
 *   openmp cancels    the same as barrier, but where OMP_CANCELLATION is true the first thread keeps the others from coming behind it
 *   openmp handed     one reads a place and hands it to the others, and each adds it
 *   openmp tasks      a sum by tasks that wait for tasks of their own, and a task that an event ends, which isn't logged
 *   openmp groups     tasks that are waited for one after the other, the last one by its group
 *   openmp copies     a task with copies of a list, which changes meanwhile, and of a structure that lies at a multiple of 64
 *   openmp loop       loops whose parts are given out while they run, and sections
 *   openmp schedules  loops by the other functions that give parts out; current compilers call all but the last one */
#include <omp.h>
#include <stdbool.h>
#include <stdint.h>
#include <stdio.h>
#include <string.h>
#include <unistd.h>

extern void GOMP_parallel_loop_static(void (*)(void *), void *, unsigned, long, long, long, long, unsigned);
extern bool GOMP_loop_static_next(long *, long *);
extern void GOMP_loop_end_nowait(void);

enum { TEAM = 4 };
static long total, named, counted, places[TEAM];
static long double precise;
static omp_lock_t lock;
static omp_nest_lock_t nested;

static void add(void) {
#pragma omp critical
    total++;
}
static void add_named(void) {
#pragma omp critical(accounts)
    named++;
}
static void add_counted(void) {
    omp_set_lock(&lock);
    counted++;
    omp_unset_lock(&lock);
}
static void add_precisely(void) {
#pragma omp atomic
    precise += 1;
}
static void locks(void) {
    omp_init_lock(&lock);
#pragma omp parallel num_threads(TEAM)
    {
        add();
        add_named();
        add_counted();
        add_precisely();
    }
    printf("%ld\n", total + named + counted + (long)precise);
}

static void tries(void) {
    int found_free[TEAM] = {0};
    omp_init_lock(&lock);
    omp_init_nest_lock(&nested);
#pragma omp parallel num_threads(TEAM)
    {
        int own = omp_get_thread_num();
        if (!own) omp_set_lock(&lock);
        if (!own) omp_set_nest_lock(&nested);
#pragma omp barrier
        if (own) found_free[own] = omp_test_lock(&lock) + omp_test_nest_lock(&nested);
#pragma omp barrier
        if (!own) omp_unset_lock(&lock);
        if (!own) found_free[own] = omp_test_nest_lock(&nested);
        if (!own) omp_unset_nest_lock(&nested), omp_unset_nest_lock(&nested);
    }
    printf("%d %d %d %d", found_free[0], found_free[1], found_free[2], found_free[3]);
    printf(" %d\n", omp_test_lock(&lock));
    omp_unset_lock(&lock);
}

static void write_own(int own) { places[own] = own + 1; }
static long read_next(int own) { return places[(own + 1) % TEAM]; }
static void barrier(void) {
#pragma omp parallel num_threads(TEAM)
    {
        int own = omp_get_thread_num();
        write_own(own);
#pragma omp barrier
        if (read_next(own) == 0) puts("not written yet");
    }
}

static void cancels(void) {
#pragma omp parallel num_threads(TEAM)
    {
        int own = omp_get_thread_num();
        write_own(own);
#pragma omp cancel parallel if (!own)
#pragma omp barrier
        if (read_next(own) == 0) puts("not written yet");
    }
}
static void add_given(long given) {
#pragma omp critical
    total += given;
}
static void handed(void) {
    long given;
    places[0] = 3;
#pragma omp parallel num_threads(TEAM) private(given)
    {
#pragma omp single copyprivate(given)
        given = places[0];
        add_given(given);
    }
    printf("%ld\n", total);
}

static void ends(void) {
#pragma omp parallel num_threads(TEAM)
    {
#pragma omp for schedule(dynamic)
        for (int one = 0; one < 100; one++) add();
#pragma omp sections
        {
#pragma omp section
            add();
#pragma omp section
            add();
        }
        add();
    }
    printf("%ld\n", total);
}

static long sum(long from, long to) {
    long low = 0, high = 0, middle = (from + to) / 2;
    if (from + 1 == to) return from;
#pragma omp task shared(low)
    low = sum(from, middle);
#pragma omp task shared(high)
    high = sum(middle, to);
#pragma omp taskwait
    return low + high;
}
static void tasks(void) {
    long result = 0;
#pragma omp parallel num_threads(TEAM)
#pragma omp single
    {
        omp_event_handle_t event;
        result = sum(0, 8);
#pragma omp task detach(event)
        omp_fulfill_event(event);
    }
    printf("%ld\n", result);
}

static void groups(void) {
#pragma omp parallel num_threads(TEAM)
#pragma omp single
    {
        long first = 0, second = 0, third = 0;
#pragma omp task shared(first)
        first = 1;
#pragma omp taskwait
#pragma omp task shared(first, second)
        second = first + 1;
#pragma omp taskwait
#pragma omp taskgroup
        {
#pragma omp task shared(second, third)
            third = second + 1;
        }
        printf("%ld %ld %ld\n", first, second, third);
    }
}

/* The task goes on once the list was changed. */
static void copies(void) {
    struct {
        _Alignas(64) char bytes[64];
    } wide = {{7}};
    int changed[2], count = 3;
    if (pipe(changed)) return;
#pragma omp parallel num_threads(TEAM)
#pragma omp single
    {
        long list[count], sum = 0;
        for (int one = 0; one < count; one++) list[one] = one + 1;
#pragma omp task firstprivate(list, wide) shared(sum)
        {
            char byte;
            if (read(changed[0], &byte, 1) != 1) perror("read");
            for (int one = 0; one < count; one++) sum += list[one];
            if ((uintptr_t)&wide % 64 || wide.bytes[0] != 7) puts("another structure");
        }
        list[0] = 100;
        if (write(changed[1], "", 1) != 1) perror("write");
#pragma omp taskwait
        printf("%ld\n", sum);
    }
}

static void adds(void *unused) {
    long from, to;
    (void)unused;
    while (GOMP_loop_static_next(&from, &to))
        for (; from < to; from++) add();
    GOMP_loop_end_nowait();
}
static void schedules(void) {
#pragma omp parallel for num_threads(TEAM) schedule(monotonic : dynamic)
    for (int one = 0; one < 100; one++) add();
#pragma omp parallel for num_threads(TEAM) schedule(monotonic : guided)
    for (int one = 0; one < 100; one++) add();
#pragma omp parallel for num_threads(TEAM) schedule(monotonic : runtime)
    for (int one = 0; one < 100; one++) add();
#pragma omp parallel for num_threads(TEAM) schedule(nonmonotonic : runtime)
    for (int one = 0; one < 100; one++) add();
    GOMP_parallel_loop_static(adds, NULL, TEAM, 0, 100, 1, 5, 0);
    printf("%ld\n", total);
}

static void loop(void) {
#pragma omp parallel for num_threads(TEAM) schedule(dynamic)
    for (int one = 0; one < 100; one++) add();
#pragma omp parallel for num_threads(TEAM) schedule(guided)
    for (int one = 0; one < 100; one++) add();
#pragma omp parallel for num_threads(TEAM) schedule(runtime)
    for (int one = 0; one < 100; one++) add();
#pragma omp parallel sections num_threads(TEAM)
    {
#pragma omp section
        add();
#pragma omp section
        add();
    }
    printf("%ld\n", total);
}

int main(int words, char **word) {
    const char *what = words > 1 ? word[1] : "";
    if (!strcmp(what, "locks")) locks();
    if (!strcmp(what, "barrier")) barrier();
    if (!strcmp(what, "ends")) ends();
    if (!strcmp(what, "cancels")) cancels();
    if (!strcmp(what, "handed")) handed();
    if (!strcmp(what, "tasks")) tasks();
    if (!strcmp(what, "groups")) groups();
    if (!strcmp(what, "copies")) copies();
    if (!strcmp(what, "tries")) tries();
    if (!strcmp(what, "loop")) loop();
    if (!strcmp(what, "schedules")) schedules();
    return 0;
}
