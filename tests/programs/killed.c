/* Adds for ever, each time in a block and under a lock. The file `progress` outlives it, and says how often its main thread has.
 *
 *   killed NAME MICROSECONDS    after so much of its processors' time it is sent the signal NAME: TERM, SEGV, ABRT; or `_exit` or
 *                               `exit`: a signal whose handler ends it by that, with status 7. Two threads add, and the signal
 *                               comes to the first
 *   killed fault, deep          it adds ten times, and then writes to address 0, or calls itself until its stack is used up, which
 *                               no hook sees
 *   killed deep-thread          the same, but another thread calls itself
 *   killed abort, assert        it adds ten times, and then calls abort or fails an assertion; a handler of its own lets that pass
 *   killed power, real-time     a signal comes that few programs know of
 *   killed by-default           its own handler of SIGTERM gives way to the default, and sends the signal again
 *   killed never, alone         two threads, or one, add until somebody ends it */
#include <assert.h>
#include <fcntl.h>
#include <pthread.h>
#include <signal.h>
#include <stdlib.h>
#include <string.h>
#include <sys/mman.h>
#include <time.h>
#include <unistd.h>

#define NOT_LOGGED __attribute__((no_sanitize("thread")))

static pthread_mutex_t lock = PTHREAD_MUTEX_INITIALIZER;
static long count;
static long *progress;

NOT_LOGGED static void note(void) { __atomic_fetch_add(progress, 1, __ATOMIC_SEQ_CST); }
static void add(void) {
    pthread_mutex_lock(&lock);
    count++;
    pthread_mutex_unlock(&lock);
}
NOT_LOGGED static void *add_for_ever(void *notes) {
    for (;;) {
        add();
        if (notes) note();
    }
    return notes;
}
static void add_ten_times(void) {
    for (int times = 0; times < 10; times++) {
        add();
        note();
    }
}

static void end_at_once(int number) { _exit(number ? 7 : 8); }
static void end(int number) { exit(number ? 7 : 8); }
static void send_again(int number) {
    signal(number, SIG_DFL);
    raise(number);
}

/* What the name says is to come after some time. */
static void arrange(const char *name, long microseconds) {
    struct sigevent event = {.sigev_notify = SIGEV_SIGNAL, .sigev_signo = SIGUSR1};
    struct itimerspec after = {.it_value = {microseconds / 1000000, microseconds % 1000000 * 1000}};
    timer_t timer;
    if (!strcmp(name, "TERM")) event.sigev_signo = SIGTERM;
    if (!strcmp(name, "SEGV")) event.sigev_signo = SIGSEGV;
    if (!strcmp(name, "ABRT")) event.sigev_signo = SIGABRT;
    if (!strcmp(name, "_exit")) signal(SIGUSR1, end_at_once);
    if (!strcmp(name, "exit")) signal(SIGUSR1, end);
    timer_create(CLOCK_PROCESS_CPUTIME_ID, &event, &timer);
    timer_settime(timer, 0, &after, NULL);
}

static volatile int never;
NOT_LOGGED static long go_deep(long depth) {
    volatile char room[4096];
    room[0] = (char)depth;
    return never ? depth : go_deep(depth + 1) + room[0];
}

static void *goes_deep(void *unused) {
    never = (int)go_deep(1);
    return unused;
}

static void let_pass(int number) { (void)number; }

static void fail(const char *way) {
    pthread_t other;
    add_ten_times();
    if (way[0] == 'a') signal(SIGABRT, let_pass);
    if (!strcmp(way, "fault")) *(volatile int *)0 = 1;
    if (!strcmp(way, "abort")) abort();
    if (!strcmp(way, "assert")) assert(count == 0);
    if (!strcmp(way, "power")) raise(SIGPWR);
    if (!strcmp(way, "real-time")) raise(SIGRTMIN + 3);
    if (!strcmp(way, "deep")) never = (int)go_deep(1);
    if (!strcmp(way, "deep-thread")) pthread_create(&other, NULL, goes_deep, NULL), pthread_join(other, NULL);
    if (!strcmp(way, "by-default")) signal(SIGTERM, send_again), raise(SIGTERM);
}

int main(int words, char **word) {
    pthread_t other;
    int file = open("progress", O_RDWR | O_CREAT | O_TRUNC, 0600);
    if (ftruncate(file, sizeof *progress)) return 2;
    progress = mmap(NULL, sizeof *progress, PROT_READ | PROT_WRITE, MAP_SHARED, file, 0);
    if (words > 2) arrange(word[1], atol(word[2]));
    else if (strcmp(word[1], "never") && strcmp(word[1], "alone")) fail(word[1]);
    sigset_t all, before;
    sigfillset(&all);
    pthread_sigmask(SIG_BLOCK, &all, &before);
    if (strcmp(word[1], "alone")) pthread_create(&other, NULL, add_for_ever, NULL);
    pthread_sigmask(SIG_SETMASK, &before, NULL);
    add_for_ever(progress);
    return 0;
}
