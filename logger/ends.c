/* The ways in which a process ends: the log is written out, and the command that reads it is waited for. */
#include "log.h"

#include <signal.h>
#include <stdio.h>
#include <stdlib.h>
#include <string.h>
#include <sys/syscall.h>
#include <unistd.h>

pid_t aero_owner;

/* A log without a line, or without blocks, would be taken for one without a violation. Of children of fork many do nothing but
 * call exec. */
static void tell_of_little(bool is_told) {
    if (!aero_has_lines()) aero_remove();
    if (aero_is_child()) return;
    if (!aero_has_lines()) aero_say("nothing is logged", "no code that aerodrome-cc has compiled did anything");
    else if (!aero_has_entered) aero_say("no block is logged", "no function that aerodrome-cc has compiled was called");
    else if (!is_told && !aero_has_begun && aero_wants_blocks())
        aero_say("no block is logged", "none of the functions was called that AERODROME_BLOCKS names");
}

static void close_log(void) {
    char why[256];
    if (aero_close()) return;
    snprintf(why, sizeof why, "%.150s: it may lack lines", strerror(errno));
    aero_say(aero_target(aero_settings.target), why);
}

/* A signal handler may have come into the logger, and hold its lock already: then what was being written out goes on, and the
 * line that was begun isn't written. A child that shares the program's memory, by vfork(), ends without ending the log. */
void aero_finish(void) {
    if (aero_log.number < 0 || getpid() != aero_owner) return;
    int was_busy = aero_me.busy;
    bool writes = aero_writes();
    aero_me.busy = 1;
    if (!aero_me.number) aero_meet_thread();
    if (!writes) aero_lock();
    aero_flush();
    if (atomic_load(&aero_state) == ON) {
        aero_end_thread();
        bool is_told = aero_tell_never_loaded();
        tell_of_little(is_told);
    }
    aero_unmark();
    atomic_store(&aero_state, OFF);
    close_log();
    aero_unlock();
    aero_be_busy_as(was_busy);
    aero_end_command(true);
}

/* What the program has said stands before what the command says. */
static void say_what_is_left(void) {
    if (!aero_is_read_by_command() || ftrylockfile(stdout)) return;
    fflush(stdout);
    funlockfile(stdout);
}
static void ends(void *unused) {
    (void)unused;
    say_what_is_left();
    aero_finish();
}

/* Registers the end of the log before any library is initialized. At exit the C library calls the handlers in the reverse order, so the log
 * ends after the destructors of all libraries. */
extern int __cxa_atexit(void (*call)(void *), void *with, void *object);
static bool comes_last;
static void before_libraries(void) { comes_last = !__cxa_atexit(ends, NULL, NULL); }
__attribute__((section(".preinit_array"), used)) static void (*first)(void) = before_libraries;
__attribute__((destructor(101))) static void late(void) {
    if (!comes_last) ends(NULL);
}

/* ---- ends that call no destructor */

EXPORT void _exit(int status) {
    aero_me.jumped |= getpid() != aero_owner;    /* what a child of vfork has entered its parent has left */
    aero_finish();
    for (;;) syscall(SYS_exit_group, status);
}
EXPORT void _Exit(int status) { _exit(status); }
/* The program's own handler may leave abort() by longjmp, as those of test frameworks do, and the program goes on. Where it returns,
 * the process ends (signals.c). */
static void aborts(void) {
    aero_me.aborts = 1;
    if (!aero_is_handled(SIGABRT)) aero_finish();
}
EXPORT void abort(void) {
    REAL(void, abort, void)
    aborts();
    real();
    __builtin_unreachable();
}
EXPORT void __assert_fail(const char *what, const char *file, unsigned line, const char *function) {
    REAL(void, __assert_fail, const char *, const char *, unsigned, const char *)
    aborts();
    real(what, file, line, function);
    __builtin_unreachable();
}

/* ---- signals that end the process, where the program has no handler for them */

static const int deadly[] = {SIGHUP, SIGINT, SIGQUIT, SIGILL, SIGTRAP, SIGABRT, SIGBUS, SIGFPE, SIGUSR1, SIGSEGV, SIGUSR2, SIGPIPE,
                             SIGALRM, SIGTERM, SIGSTKFLT, SIGXCPU, SIGXFSZ, SIGVTALRM, SIGPROF, SIGIO, SIGPWR, SIGSYS};

bool aero_is_deadly(int signal) {
    if (signal >= SIGRTMIN && signal <= SIGRTMAX) return true;
    for (size_t one = 0; one < sizeof deadly / sizeof *deadly; one++)
        if (deadly[one] == signal) return true;
    return false;
}

/* The handler is gone by now (SA_RESETHAND), so the signal ends the process when it comes again: what the kernel found faulty by
 * itself, others because they are sent; where one can't be sent, the process ends with the status that a shell has for it. Another one
 * that comes meanwhile doesn't wait for the log. */
static void ends_by(int signal, siginfo_t *how, void *unused) {
    static __thread bool is_ending;
    int error = errno;
    bool is_fault = signal == SIGSEGV || signal == SIGBUS || signal == SIGFPE || signal == SIGILL;
    (void)unused;
    if (!is_ending) {
        is_ending = true;
        aero_finish();
    }
    errno = error;
    if (is_fault && how->si_code > 0) return;
    if (syscall(SYS_tgkill, getpid(), syscall(SYS_gettid), signal)) syscall(SYS_exit_group, 128 + signal);
}

/* A stack that is used up has no room for the handler, so each thread has another one for that. Those of threads that have ended
 * are kept for others. */
enum { SIGNAL_STACK = 1 << 16, MOST_SPARE = 256 };
static void *spare[MOST_SPARE];
static int spare_count;
static lock_word spare_lock;
static __thread void *signal_stack;

void aero_lock_stacks(void) { aero_take(&spare_lock); }
void aero_unlock_stacks(void) { aero_let_go(&spare_lock); }

static void tell_of_no_stack(void) {
    static atomic_int is_told;
    if (!atomic_exchange(&is_told, 1))
        aero_say("a thread", "it has no stack for signals: if it uses up its own, the log's last lines are lost");
}

void aero_take_signal_stack(void) {
    aero_take(&spare_lock);
    signal_stack = spare_count ? spare[--spare_count] : NULL;
    aero_let_go(&spare_lock);
    if (!signal_stack) signal_stack = aero_pages(SIGNAL_STACK);
    stack_t ours = {.ss_sp = signal_stack, .ss_size = SIGNAL_STACK};
    if (signal_stack && !sigaltstack(&ours, NULL)) return;
    aero_free_pages(signal_stack, SIGNAL_STACK);
    signal_stack = NULL;
    tell_of_no_stack();
}
void aero_drop_signal_stack(void) {
    const stack_t none = {.ss_flags = SS_DISABLE};
    if (!signal_stack || sigaltstack(&none, NULL)) return;
    aero_take(&spare_lock);
    bool is_kept = spare_count < MOST_SPARE;
    if (is_kept) spare[spare_count++] = signal_stack;
    aero_let_go(&spare_lock);
    if (!is_kept) aero_free_pages(signal_stack, SIGNAL_STACK);
    signal_stack = NULL;
}

struct sigaction aero_at_the_end(void) {
    struct sigaction action = {.sa_sigaction = ends_by, .sa_flags = SA_SIGINFO | SA_RESETHAND | SA_NODEFER | SA_ONSTACK};
    sigfillset(&action.sa_mask);
    for (int signal = 1; signal <= SIGRTMAX; signal++)
        if (aero_is_deadly(signal)) sigdelset(&action.sa_mask, signal);
    return action;
}

void aero_ends_start(void) {
    aero_owner = getpid();
    aero_take_signal_stack();
}
