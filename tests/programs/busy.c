/* A thousand threads that are there at the same time, each with a block, while a timer sends signals, whose handler has a block of
 * its own. Then fifty threads are cancelled where they wait. It says how often was added. */
#include <pthread.h>
#include <signal.h>
#include <stdio.h>
#include <sys/time.h>

enum { THREADS = 1000, CANCELLED = 50 };
static pthread_mutex_t lock = PTHREAD_MUTEX_INITIALIZER;
static pthread_cond_t opened = PTHREAD_COND_INITIALIZER;
static int is_open, never;
static long count;
static volatile sig_atomic_t signals;

/* (without hooks: the signals of two threads would conflict by it, and their blocks with the additions) */
__attribute__((no_sanitize("thread"))) static void note(void) { signals = 1; }
static void handle(int number) {
    if (number != never) note();
}

static void add(void) {
    pthread_mutex_lock(&lock);
    count++;
    pthread_mutex_unlock(&lock);
}
static void unlock(void *unused) {
    (void)unused;
    pthread_mutex_unlock(&lock);
}
static void wait_until(const int *what) {
    pthread_mutex_lock(&lock);
    pthread_cleanup_push(unlock, NULL);
    while (!*what) pthread_cond_wait(&opened, &lock);
    pthread_cleanup_pop(1);
}
static void *add_once_open(void *unused) {
    wait_until(&is_open);
    add();
    return unused;
}
static void *wait_in_vain(void *unused) {
    wait_until(&never);
    return unused;
}
static void open_it(void) {
    pthread_mutex_lock(&lock);
    is_open = 1;
    pthread_cond_broadcast(&opened);
    pthread_mutex_unlock(&lock);
}

int main(void) {
    static pthread_t threads[THREADS];
    struct sigaction action = {.sa_handler = handle, .sa_flags = SA_RESTART};
    struct itimerval often = {{0, 500}, {0, 500}};
    sigaction(SIGPROF, &action, NULL);
    setitimer(ITIMER_PROF, &often, NULL);
    for (int one = 0; one < THREADS; one++) pthread_create(&threads[one], NULL, add_once_open, NULL);
    open_it();
    for (int one = 0; one < THREADS; one++) pthread_join(threads[one], NULL);
    for (int one = 0; one < CANCELLED; one++) pthread_create(&threads[one], NULL, wait_in_vain, NULL);
    for (int one = 0; one < CANCELLED; one++) pthread_cancel(threads[one]);
    for (int one = 0; one < CANCELLED; one++) pthread_join(threads[one], NULL);
    printf("%ld, %s\n", count, signals ? "with signals" : "without signals");
    return 0;
}
