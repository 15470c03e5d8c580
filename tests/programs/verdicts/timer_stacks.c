// Verdict: serializable
// Blocks: f
// The C library starts two threads for timers, one after the other, with one stack: what lies there are new variables.
#include <pthread.h>
#include <signal.h>
#include <stdatomic.h>
#include <time.h>
#include <unistd.h>
#define NOT_LOGGED __attribute__((no_sanitize("thread"), noinline))
static atomic_int x, y, ended;
NOT_LOGGED static void met(void) { __atomic_add_fetch(&ended, 1, __ATOMIC_SEQ_CST); }
NOT_LOGGED static void await_end(int number) {
    const struct timespec some_time = {0, 20000000};
    while (__atomic_load_n(&ended, __ATOMIC_SEQ_CST) < number) {}
    nanosleep(&some_time, NULL);
}
static void put(int *to) { *to = 1; }
static void first(union sigval unused) {
    int local[16];
    (void)unused;
    (void)atomic_load(&x);
    put(&local[3]);
    met();
}
static void second(union sigval unused) {
    int local[16];
    (void)unused;
    put(&local[3]);
    atomic_store(&y, 1);
    met();
}
NOT_LOGGED static void fire(void (*call)(union sigval)) {
    timer_t timer;
    struct sigevent event = {.sigev_notify = SIGEV_THREAD, .sigev_notify_function = call};
    struct itimerspec at = {{0, 0}, {0, 1000000}};
    timer_create(CLOCK_MONOTONIC, &event, &timer);
    timer_settime(timer, 0, &at, NULL);
}
static int f(void) {
    atomic_store(&x, 1);
    fire(first);
    await_end(1);
    fire(second);
    await_end(2);
    return atomic_load(&y);
}
int main(void) { return f() - 1; }
