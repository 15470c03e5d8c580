/* Blocks that are left without a return, and a lock that stays held.
 *
 *   leaves jump     longjmp out of two blocks
 *   leaves sigjump  siglongjmp, and _longjmp, out of two blocks
 *   leaves handler  siglongjmp out of a block that a signal handler is, on a stack of its own, which lies above the thread's
 *   leaves exit     pthread_exit out of two blocks
 *   leaves lock     a thread ends with a robust mutex, which another one then takes
 *   leaves cancel   a thread is cancelled where it waits on a condition variable
 *   leaves signal   a handler has blocks of its own
 *   leaves fork     a child that isn't logged goes on without exec, and ends by exit
 *   leaves quit     the process ends by exit within a block */
#include <errno.h>
#include <pthread.h>
#include <setjmp.h>
#include <signal.h>
#include <stdio.h>
#include <stdlib.h>
#include <string.h>
#include <sys/mman.h>
#include <sys/wait.h>
#include <unistd.h>

static pthread_mutex_t lock = PTHREAD_MUTEX_INITIALIZER, robust;
static pthread_cond_t never = PTHREAD_COND_INITIALIZER;
static long count;
enum { STACK = 1 << 20 };
static jmp_buf back;

static void add(void) {
    pthread_mutex_lock(&lock);
    count++;
    pthread_mutex_unlock(&lock);
}

static void jump_out(void) {
    add();
    longjmp(back, 1);
}
static void jumps(void) { jump_out(); }
static void *jump(void *unused) {
    for (volatile int times = 0; times < 5; times++)
        if (!setjmp(back)) jumps();
    add();
    return unused;
}

static sigjmp_buf back_with_signals;
static void sigjump_out(void) {
    add();
    siglongjmp(back_with_signals, 1);
}
static void sigjumps(void) { sigjump_out(); }
static void plain_jump_out(void) {
    add();
    _longjmp(back, 1);
}
static void plain_jumps(void) { plain_jump_out(); }
static void *sigjump(void *unused) {
    for (volatile int times = 0; times < 5; times++)
        if (!sigsetjmp(back_with_signals, 1)) sigjumps();
    add();
    for (volatile int times = 0; times < 5; times++)
        if (!setjmp(back)) plain_jumps();
    add();
    return unused;
}

static void handle_and_leave(int number) {
    add();
    siglongjmp(back_with_signals, number);
}
static void raise_signal(void) { raise(SIGUSR2); }
static void *leave_handler(void *above) {
    const stack_t own = {.ss_sp = above, .ss_size = STACK};
    struct sigaction action = {.sa_handler = handle_and_leave, .sa_flags = SA_ONSTACK};
    sigaltstack(&own, NULL);
    sigaction(SIGUSR2, &action, NULL);
    for (volatile int times = 0; times < 5; times++)
        if (!sigsetjmp(back_with_signals, 1)) raise_signal();
    add();
    return NULL;
}
/* The thread's stack is the lower half. */
static void run_below(void) {
    pthread_t thread;
    pthread_attr_t attributes;
    char *low = mmap(NULL, 2 * STACK, PROT_READ | PROT_WRITE, MAP_PRIVATE | MAP_ANONYMOUS, -1, 0);
    pthread_attr_init(&attributes);
    pthread_attr_setstack(&attributes, low, STACK);
    pthread_create(&thread, &attributes, leave_handler, low + STACK);
    pthread_join(thread, NULL);
}

static void exit_out(void) {
    add();
    pthread_exit(NULL);
}
static void *exits(void *unused) {
    exit_out();
    return unused;
}

static void *leave_locked(void *unused) {
    pthread_mutex_lock(&robust);
    count++;
    return unused;
}

static void unlock(void *unused) {
    (void)unused;
    pthread_mutex_unlock(&lock);
}
static void wait_for_ever(void) {
    pthread_mutex_lock(&lock);
    pthread_cleanup_push(unlock, NULL);
    for (;;) pthread_cond_wait(&never, &lock);
    pthread_cleanup_pop(1);
}
static void *waits(void *unused) {
    wait_for_ever();
    return unused;
}

static void handle(int number) { count += number != 0; }
static void *raises(void *unused) {
    for (int times = 0; times < 5; times++) raise(SIGUSR1);
    return unused;
}

static void run(void *(*start)(void *), int cancelled) {
    pthread_t thread;
    pthread_create(&thread, NULL, start, NULL);
    if (cancelled) pthread_cancel(thread);
    pthread_join(thread, NULL);
}

static void lock_of_the_dead(void) {
    pthread_mutexattr_t attributes;
    pthread_mutexattr_init(&attributes);
    pthread_mutexattr_setrobust(&attributes, PTHREAD_MUTEX_ROBUST);
    pthread_mutex_init(&robust, &attributes);
    run(leave_locked, 0);
    if (pthread_mutex_lock(&robust) == EOWNERDEAD) puts("its owner has ended");
    pthread_mutex_consistent(&robust);
    pthread_mutex_unlock(&robust);
}

static int go_on_in_child(void) {
    int status = 1;
    pid_t child = fork();
    add();
    if (!child) exit(4);
    waitpid(child, &status, 0);
    return WEXITSTATUS(status);
}

static void quit(void) { exit(5); }

int main(int words, char **word) {
    const char *way = words > 1 ? word[1] : "";
    if (!strcmp(way, "jump")) run(jump, 0);
    if (!strcmp(way, "sigjump")) run(sigjump, 0);
    if (!strcmp(way, "handler")) run_below();
    if (!strcmp(way, "exit")) run(exits, 0);
    if (!strcmp(way, "lock")) lock_of_the_dead();
    if (!strcmp(way, "cancel")) run(waits, 1);
    if (!strcmp(way, "signal")) signal(SIGUSR1, handle), run(raises, 0);
    if (!strcmp(way, "fork")) return go_on_in_child();
    if (!strcmp(way, "quit")) quit();
    add();
    return 0;
}
