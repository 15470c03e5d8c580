/* Signals that mostly come while their thread is in the logger, as it logs each turn of a loop. Each way prints what it has seen.
 *
 *   interrupted each        a handler for each of 500 signals, sent one by one
 *   interrupted stopped     a collector: 100 times it has a thread wait in its handler, accesses what that accesses, and lets it go on
 *   interrupted faults      atomic operations on pages that a handler of SIGSEGV makes accessible, under a mutex
 *   interrupted malloc      handlers that call 300 functions for the first time, while their thread allocates
 *   interrupted values      signals of real time with the values 1 to 300, in their order
 *   interrupted masks       what a handler is told, which signals it blocks, and on which stack it runs
 *   interrupted nested      a handler that lets another signal come, and one that is left by siglongjmp
 *   interrupted posts       a handler posts a semaphore, which another thread waits for */
#define _GNU_SOURCE
#include <pthread.h>
#include <semaphore.h>
#include <setjmp.h>
#include <signal.h>
#include <stdbool.h>
#include <stdio.h>
#include <stdlib.h>
#include <string.h>
#include <sys/mman.h>
#include <sys/time.h>
#include <unistd.h>

#define NOT_LOGGED __attribute__((no_sanitize("thread"), noinline))

static volatile int runs = 1;
static volatile int turns;
static int got;
NOT_LOGGED static int seen(void) { return __atomic_load_n(&got, __ATOMIC_SEQ_CST); }
NOT_LOGGED static void saw(int number) { __atomic_store_n(&got, number, __ATOMIC_SEQ_CST); }
NOT_LOGGED static void stop(void) { __atomic_store_n(&runs, 0, __ATOMIC_SEQ_CST); }

static void *turn(void *unused) {
    while (runs) turns++;
    return unused;
}
NOT_LOGGED static pthread_t start(void) {
    pthread_t thread;
    if (pthread_create(&thread, NULL, turn, NULL)) exit(1);
    while (!__atomic_load_n(&turns, __ATOMIC_SEQ_CST)) {}
    return thread;
}
NOT_LOGGED static void end(pthread_t thread) {
    stop();
    pthread_join(thread, NULL);
}
NOT_LOGGED static void handle(int signal, void (*handler)(int, siginfo_t *, void *), int flags, const sigset_t *mask) {
    struct sigaction action = {.sa_sigaction = handler, .sa_flags = SA_SIGINFO | flags};
    if (mask) action.sa_mask = *mask;
    if (sigaction(signal, &action, NULL)) exit(1);
}

/* ---- each */

static void each_handler(int signal) {
    (void)signal;
    saw(got + 1);
}
NOT_LOGGED static void each(void) {
    signal(SIGUSR1, each_handler);
    pthread_t thread = start();
    for (int times = 1; times <= 500; times++) {
        pthread_kill(thread, SIGUSR1);
        while (seen() < times) {}
    }
    end(thread);
    printf("%d handlers\n", got);
}

/* ---- stopped */

static sem_t stopped;
static void on_restart(int signal, siginfo_t *how, void *at) { (void)signal, (void)how, (void)at; }
static void on_stop(int signal, siginfo_t *how, void *at) {
    sigset_t but_restart;
    (void)signal, (void)how, (void)at;
    sigfillset(&but_restart);
    sigdelset(&but_restart, SIGUSR2);
    sem_post(&stopped);
    sigsuspend(&but_restart);
}
static void collect(pthread_t thread) {
    pthread_kill(thread, SIGUSR1);
    while (sem_wait(&stopped)) {}
    turns = 1;
    pthread_kill(thread, SIGUSR2);
}
NOT_LOGGED static void stop_world(void) {
    sigset_t all;
    sigfillset(&all);
    handle(SIGUSR1, on_stop, 0, &all);
    handle(SIGUSR2, on_restart, 0, &all);
    sem_init(&stopped, 0, 0);
    pthread_t thread = start();
    for (int times = 0; times < 100; times++) collect(thread);
    end(thread);
    puts("stopped 100 times");
}

/* ---- faults */

static pthread_mutex_t lock = PTHREAD_MUTEX_INITIALIZER;
static int made;
static void on_fault(int signal, siginfo_t *how, void *at) {
    (void)signal, (void)at;
    pthread_mutex_lock(&lock);
    made++;
    mprotect((void *)((size_t)how->si_addr & ~(size_t)4095), 4096, PROT_READ | PROT_WRITE);
    pthread_mutex_unlock(&lock);
}
static void *lock_and_turn(void *unused) {
    while (runs) {
        pthread_mutex_lock(&lock);
        turns++;
        pthread_mutex_unlock(&lock);
    }
    return unused;
}
NOT_LOGGED static int *pages_of(int count) {
    return mmap(NULL, (size_t)count * 4096, PROT_NONE, MAP_PRIVATE | MAP_ANONYMOUS, -1, 0);
}
static int touch(int *page) { return __atomic_add_fetch(page, 1, __ATOMIC_SEQ_CST); }
static void faults(void) {
    enum { PAGES = 1000 };
    int *pages = pages_of(PAGES), sum = 0;
    pthread_t thread;
    handle(SIGSEGV, on_fault, 0, NULL);
    pthread_create(&thread, NULL, lock_and_turn, NULL);
    for (int page = 0; page < PAGES; page++) sum += touch(pages + page * 1024);
    end(thread);
    printf("%d pages, sum %d\n", made, sum);
}

/* ---- malloc */

#define F(n) static __attribute__((noinline)) void f##n(void) { saw(got + 1); }
#define F10(n) F(n##0) F(n##1) F(n##2) F(n##3) F(n##4) F(n##5) F(n##6) F(n##7) F(n##8) F(n##9)
#define F100(n) F10(n##0) F10(n##1) F10(n##2) F10(n##3) F10(n##4) F10(n##5) F10(n##6) F10(n##7) F10(n##8) F10(n##9)
F100(1) F100(2) F100(3)
#define N(n) f##n,
#define N10(n) N(n##0) N(n##1) N(n##2) N(n##3) N(n##4) N(n##5) N(n##6) N(n##7) N(n##8) N(n##9)
#define N100(n) N10(n##0) N10(n##1) N10(n##2) N10(n##3) N10(n##4) N10(n##5) N10(n##6) N10(n##7) N10(n##8) N10(n##9)
static void (*const functions[])(void) = {N100(1) N100(2) N100(3)};
static void on_alarm(int signal, siginfo_t *how, void *at) {
    (void)signal, (void)how, (void)at;
    if (got < 300) functions[got]();
}
static void *sleep_for_ever(void *unused) {
    pause();
    return unused;
}
NOT_LOGGED static void allocate(void) {
    struct itimerval often = {{0, 300}, {0, 300}}, never = {{0, 0}, {0, 0}};
    sigset_t alarm;
    pthread_t other;
    sigemptyset(&alarm);
    sigaddset(&alarm, SIGALRM);
    pthread_sigmask(SIG_BLOCK, &alarm, NULL);
    pthread_create(&other, NULL, sleep_for_ever, NULL);
    pthread_sigmask(SIG_UNBLOCK, &alarm, NULL);
    handle(SIGALRM, on_alarm, SA_RESTART, NULL);
    setitimer(ITIMER_REAL, &often, NULL);
    while (seen() < 300) {
        void *rooms[64];
        for (int one = 0; one < 64; one++) rooms[one] = malloc(24);
        for (int one = 0; one < 64; one++) free(rooms[one]);
    }
    setitimer(ITIMER_REAL, &never, NULL);
    printf("%d functions\n", seen());
}

/* ---- values */

static int out_of_order;
static void on_value(int signal, siginfo_t *how, void *at) {
    (void)signal, (void)at;
    out_of_order += how->si_value.sival_int != got + 1 || how->si_code != SI_QUEUE;
    saw(got + 1);
}
NOT_LOGGED static void values(void) {
    handle(SIGRTMIN + 3, on_value, 0, NULL);
    pthread_t thread = start();
    for (int value = 1; value <= 300; value++)
        while (pthread_sigqueue(thread, SIGRTMIN + 3, (union sigval){.sival_int = value})) {}
    while (seen() < 300) {}
    end(thread);
    printf("%d values, %d out of order\n", got, out_of_order);
}

/* ---- masks */

static char stack[1 << 16];
static int wrong;
static void expects(bool is_so) { wrong += !is_so; }
NOT_LOGGED static bool blocks(int signal) {
    sigset_t now;
    pthread_sigmask(SIG_BLOCK, NULL, &now);
    return sigismember(&now, signal);
}
static void on_masked(int signal, siginfo_t *how, void *at) {
    ucontext_t *context = at;
    size_t here = (size_t)&context - (size_t)stack;
    expects(signal == SIGUSR1 && how->si_signo == SIGUSR1 && how->si_code == SI_TKILL && how->si_pid == getpid());
    expects(blocks(SIGUSR1) && blocks(SIGUSR2) && !blocks(SIGHUP) && blocks(SIGWINCH));
    expects(sigismember(&context->uc_sigmask, SIGWINCH) && !sigismember(&context->uc_sigmask, SIGUSR2));
    expects(here < sizeof stack);
    saw(got + 1);
}
static void *turn_masked(void *unused) {
    stack_t own = {.ss_sp = stack, .ss_size = sizeof stack};
    sigset_t change;
    sigemptyset(&change);
    sigaddset(&change, SIGWINCH);
    pthread_sigmask(SIG_BLOCK, &change, NULL);
    sigaltstack(&own, NULL);
    while (runs) {
        turns++;
        expects(!blocks(SIGUSR1) && !blocks(SIGUSR2) && blocks(SIGWINCH));
    }
    return unused;
}
static void once(int signal) {
    (void)signal;
    saw(got + 1);
}
NOT_LOGGED static void masks(void) {
    struct sigaction told, resets = {.sa_handler = once, .sa_flags = (int)(SA_RESETHAND | SA_NODEFER)};
    sigset_t second;
    pthread_t thread;
    sigemptyset(&second);
    sigaddset(&second, SIGUSR2);
    handle(SIGUSR1, on_masked, SA_ONSTACK, &second);
    handle(SIGUSR2, on_restart, 0, NULL);
    handle(SIGWINCH, on_restart, 0, NULL);
    if (pthread_create(&thread, NULL, turn_masked, NULL)) exit(1);
    while (!__atomic_load_n(&turns, __ATOMIC_SEQ_CST)) {}
    for (int times = 1; times <= 200; times++) {
        pthread_kill(thread, SIGUSR1);
        while (seen() < times) {}
    }
    end(thread);
    sigaction(SIGUSR1, NULL, &told);
    expects(told.sa_sigaction == on_masked && told.sa_flags & SA_SIGINFO && told.sa_flags & SA_ONSTACK);
    expects(sigismember(&told.sa_mask, SIGUSR2) && !sigismember(&told.sa_mask, SIGUSR1));
    expects(signal(SIGHUP, once) == SIG_DFL && signal(SIGHUP, SIG_IGN) == once && signal(SIGHUP, SIG_DFL) == SIG_IGN);
    sigaction(SIGHUP, &resets, NULL);
    raise(SIGHUP);
    sigaction(SIGHUP, NULL, &told);
    expects(told.sa_handler == SIG_DFL && !(told.sa_flags & SA_SIGINFO));
    printf("%d handlers, %d wrong\n", got, wrong);
}

/* ---- nested */

static sigjmp_buf back;
static void on_inner(int signal, siginfo_t *how, void *at) {
    (void)signal, (void)how, (void)at;
    turns++;
}
static void on_outer(int signal, siginfo_t *how, void *at) {
    (void)signal, (void)how, (void)at;
    int before = turns;
    raise(SIGUSR2);
    expects(turns == before + 1);
    saw(got + 1);
    if (got % 2) siglongjmp(back, 1);
}
static void *turn_and_return(void *unused) {
    sigsetjmp(back, 1);
    while (runs) turns += 2;
    return unused;
}
NOT_LOGGED static void nested(void) {
    pthread_t thread;
    handle(SIGUSR1, on_outer, 0, NULL);
    handle(SIGUSR2, on_inner, 0, NULL);
    if (pthread_create(&thread, NULL, turn_and_return, NULL)) exit(1);
    while (!__atomic_load_n(&turns, __ATOMIC_SEQ_CST)) {}
    for (int times = 1; times <= 100; times++) {
        pthread_kill(thread, SIGUSR1);
        while (seen() < times) {}
    }
    end(thread);
    printf("%d handlers, %d wrong\n", got, wrong);
}

/* ---- posts */

static void on_post(int signal, siginfo_t *how, void *at) {
    (void)signal, (void)how, (void)at;
    sem_post(&stopped);
}
static void posts(void) {
    sem_init(&stopped, 0, 0);
    handle(SIGUSR1, on_post, 0, NULL);
    pthread_t thread = start();
    for (int times = 0; times < 300; times++) {
        pthread_kill(thread, SIGUSR1);
        while (sem_wait(&stopped)) {}
    }
    end(thread);
    puts("300 posts");
}

int main(int count, char **words) {
    static const struct {
        const char *name;
        void (*run)(void);
    } ways[] = {{"each", each}, {"stopped", stop_world}, {"faults", faults}, {"malloc", allocate}, {"values", values},
                {"masks", masks}, {"nested", nested}, {"posts", posts}};
    for (size_t one = 0; count > 1 && one < sizeof ways / sizeof *ways; one++)
        if (!strcmp(words[1], ways[one].name)) ways[one].run();
    return 0;
}
