/* The program's signal handlers. One whose signal comes while its thread is in the logger waits, and runs where the thread leaves
 * that: so it finds no lock of the logger's held, and no line half written, and what it does is logged.
 *
 *   a signal that is sent        waits. Meanwhile the thread blocks all signals with handlers, and the system keeps those
 *   a fault of the thread's own  (an atomic operation may have one) is handled at once, after the log's lock was given back
 *
 * The handler that waits gets what the system gave with the signal, has the mask that the system made for it, and runs on the signal
 * stack if it would have. What it changes of the interrupted code's registers is lost. */
#include "log.h"

#include <signal.h>
#include <string.h>
#include <sys/syscall.h>
#include <ucontext.h>
#include <unistd.h>

enum { SIGNALS = 65 };
#define WITH_INFO ((uintptr_t)1 << 63)           /* of a handler that SA_SIGINFO was said for */
static _Atomic uintptr_t handlers[SIGNALS];      /* those that the program has set last */
static _Atomic uint64_t handled, reset, interrupting;    /* signals: to be blocked, with SA_RESETHAND, and by siginterrupt */

typedef void (*handler_type)(int);
typedef void (*info_handler_type)(int, siginfo_t *, void *);

static uint64_t bit_of(int signal) { return (uint64_t)1 << (signal - 1); }
static bool is_signal(int signal) { return signal > 0 && signal < SIGNALS; }
static bool is_of_faults(int signal) {
    return signal == SIGSEGV || signal == SIGBUS || signal == SIGFPE || signal == SIGILL || signal == SIGTRAP || signal == SIGSYS;
}
static bool is_fault(int signal, const siginfo_t *how) { return is_of_faults(signal) && how->si_code > 0; }

static int set(int signal, const struct sigaction *action, struct sigaction *before) {
    REAL(int, sigaction, int, const struct sigaction *, struct sigaction *)
    return real(signal, action, before);
}

/* ---- the handler that waits */

struct note {
    int signal;
    bool has_stack;          /* it runs on the signal stack, which ends at `stack` */
    char *stack;
    uintptr_t handler;
    siginfo_t how;
    sigset_t mask;           /* for the handler */
    ucontext_t at;
};
static __thread struct note note;

static void call(uintptr_t handler, int signal, siginfo_t *how, void *at) {
    size_t before = aero_me.handler;
    uintptr_t before_at = aero_me.handler_at;
    aero_me.handler = aero_me.depth + 1;
    aero_me.handler_at = (uintptr_t)__builtin_frame_address(0);
    if (handler & WITH_INFO) ((info_handler_type)(handler & ~WITH_INFO))(signal, how, at);
    else ((handler_type)handler)(signal);
    aero_me.handler = before;
    aero_me.handler_at = before_at;
    /* abort() goes on to end the process. */
    if (signal == SIGABRT && aero_me.aborts) aero_finish();
}

#ifdef __x86_64__
/* (with what an exception or pthread_exit needs to pass) */
__asm__(".text\n"
        ".globl aero_call_on\n"
        ".hidden aero_call_on\n"
        ".type aero_call_on, @function\n"
        "aero_call_on:\n"
        ".cfi_startproc\n"
        "push %rbp\n"
        ".cfi_def_cfa_offset 16\n"
        ".cfi_offset %rbp, -16\n"
        "mov %rsp, %rbp\n"
        ".cfi_def_cfa_register %rbp\n"
        "mov %rdi, %rsp\n"
        "and $-16, %rsp\n"
        "mov %rdx, %rdi\n"
        "call *%rsi\n"
        "leave\n"
        ".cfi_def_cfa %rsp, 8\n"
        "ret\n"
        ".cfi_endproc\n"
        ".size aero_call_on, . - aero_call_on\n");
#else
void aero_call_on(char *stack, void (*what)(void *), void *with) {
    (void)stack;
    what(with);
}
#endif
static void call_noted(void *given) {
    struct note *it = given;
    call(it->handler, it->signal, &it->how, &it->at);
}

/* The signals that were blocked since come where the mask is the program's again. */
void aero_handle(void) {
    struct note it = note;
    aero_me.waits = 0;
    it.at.uc_mcontext.fpregs = &it.at.__fpregs_mem;
    pthread_sigmask(SIG_SETMASK, &it.mask, NULL);
    if (it.has_stack) aero_call_on(it.stack, call_noted, &it);
    else call_noted(&it);
    pthread_sigmask(SIG_SETMASK, &it.at.uc_sigmask, NULL);
}

void aero_forget_handler(void) {
    if (!aero_me.waits) return;
    aero_me.waits = 0;
    pthread_sigmask(SIG_SETMASK, &note.at.uc_sigmask, NULL);
}

/* What the system has put down where it interrupted the thread; its mask has 64 bits. */
static void copy_context(ucontext_t *to, const ucontext_t *from) {
    memset(to, 0, sizeof *to);
    memcpy(to, from, offsetof(ucontext_t, uc_sigmask) + sizeof(uint64_t));
    if (from->uc_mcontext.fpregs) memcpy(&to->__fpregs_mem, from->uc_mcontext.fpregs, sizeof to->__fpregs_mem);
}

/* Whether the handler has a signal stack to itself, on which the thread wasn't before. */
static bool has_stack(struct note *it, const ucontext_t *at) {
    stack_t stack;
    if (sigaltstack(NULL, &stack) || !(stack.ss_flags & SS_ONSTACK)) return false;
    it->stack = (char *)stack.ss_sp + stack.ss_size;
    return (uintptr_t)at->uc_mcontext.gregs[REG_RSP] - (uintptr_t)stack.ss_sp >= stack.ss_size;
}

/* The system is to keep the signal, as another one waits already. */
static void give_back(int signal, siginfo_t *how, ucontext_t *at) {
    sigset_t one;
    sigemptyset(&one);
    sigaddset(&one, signal);
    sigaddset(&at->uc_sigmask, signal);
    pthread_sigmask(SIG_BLOCK, &one, NULL);
    syscall(SYS_rt_tgsigqueueinfo, getpid(), syscall(SYS_gettid), signal, how);
}

static void put_off(int signal, uintptr_t handler, siginfo_t *how, ucontext_t *at) {
    int error = errno;
    if (aero_me.waits) give_back(signal, how, at);
    else {
        note.signal = signal;
        note.handler = handler;
        note.how = *how;
        note.has_stack = has_stack(&note, at);
        copy_context(&note.at, at);
        pthread_sigmask(SIG_BLOCK, NULL, &note.mask);
        *(uint64_t *)&at->uc_sigmask |= atomic_load(&handled);
        aero_me.waits = 1;
    }
    errno = error;
}

/* A fault within the logger: the one that waits has come before. */
static void handle_before(int signal, ucontext_t *at) {
    struct sigaction now;
    if (set(signal, NULL, &now)) return;
    aero_handle();
    pthread_sigmask(SIG_BLOCK, &now.sa_mask, &at->uc_sigmask);
}
/* (a handler that carries out system calls would be called for those of the logger) */
static void interrupt(int signal, uintptr_t handler, siginfo_t *how, ucontext_t *at) {
    struct thread *me = &aero_me;
    int busy = me->busy, error = me->error, now = errno;
    bool has_log = aero_writes();
    if (has_log) aero_unlock();
    me->busy = signal == SIGSYS ? busy : 0;
    if (me->waits && !me->busy) handle_before(signal, at);
    errno = now;
    call(handler, signal, how, at);
    now = errno;
    me->busy = busy;
    me->error = error;
    if (has_log) aero_lock();
    errno = now;
}

static void note_bit(_Atomic uint64_t *bits, int signal, bool is_set) {
    if (is_set) atomic_fetch_or(bits, bit_of(signal));
    else atomic_fetch_and(bits, ~bit_of(signal));
}

/* ---- the program's actions */

static void by_default(int signal) {
    struct sigaction now, ours = aero_at_the_end();
    int error = errno;
    note_bit(&handled, signal, false);
    if (aero_log.number >= 0 && aero_is_deadly(signal) && !set(signal, NULL, &now) && now.sa_handler == SIG_DFL)
        set(signal, &ours, NULL);
    errno = error;
}

static void comes(int signal, siginfo_t *how, void *at) {
    uintptr_t handler = atomic_load(&handlers[signal]);
    if (UNLIKELY(atomic_load(&reset) & bit_of(signal))) by_default(signal);
    if (!aero_me.busy) call(handler, signal, how, at);
    else if (is_fault(signal, how)) interrupt(signal, handler, how, at);
    else put_off(signal, handler, how, at);
}

/* Puts the handler into the action that the program is told. */
static void put_handler(struct sigaction *action, uintptr_t handler) {
    action->sa_handler = (handler_type)(handler & ~WITH_INFO);
    if (!(handler & WITH_INFO)) action->sa_flags &= ~SA_SIGINFO;
}
static void tell(struct sigaction *action, uintptr_t handler) {
    if (action->sa_sigaction == comes) put_handler(action, handler);
    else if (action->sa_sigaction == aero_at_the_end().sa_sigaction) *action = (struct sigaction){.sa_handler = SIG_DFL};
}

/* The action that the system gets in the place of the program's. */
static struct sigaction ours_for(int signal, const struct sigaction *action) {
    struct sigaction ours = *action;
    bool has_handler = action->sa_handler != SIG_DFL && action->sa_handler != SIG_IGN;
    note_bit(&handled, signal, has_handler && !is_of_faults(signal));
    if (!has_handler) return action->sa_handler == SIG_DFL && aero_is_deadly(signal) ? aero_at_the_end() : ours;
    note_bit(&reset, signal, action->sa_flags & SA_RESETHAND);
    atomic_store(&handlers[signal], (uintptr_t)action->sa_handler | (action->sa_flags & SA_SIGINFO ? WITH_INFO : 0));
    ours.sa_sigaction = comes;
    ours.sa_flags |= SA_SIGINFO;
    return ours;
}

/* The program is told of its own handlers only. A child of vfork() has its own actions, but the logger's memory. */
EXPORT int sigaction(int signal, const struct sigaction *action, struct sigaction *before) {
    struct sigaction ours;
    if (!is_signal(signal)) return set(signal, action, before);
    uintptr_t handler = atomic_load(&handlers[signal]);
    if (action && aero_log.number >= 0 && getpid() == aero_owner) {
        ours = ours_for(signal, action);
        action = &ours;
    }
    int result = set(signal, action, before);
    if (result && action == &ours) atomic_store(&handlers[signal], handler);
    if (!result && before) tell(before, handler);
    return result;
}

static handler_type set_handler(int signal, handler_type handler, int flags, bool blocks) {
    struct sigaction action = {.sa_handler = handler, .sa_flags = flags}, before;
    sigemptyset(&action.sa_mask);
    if (handler == SIG_ERR || !is_signal(signal)) {
        errno = EINVAL;
        return SIG_ERR;
    }
    if (blocks) sigaddset(&action.sa_mask, signal);
    return sigaction(signal, &action, &before) ? SIG_ERR : before.sa_handler;
}

/* The C library's own functions would set the action past the logger. */
EXPORT handler_type signal(int number, handler_type handler) {
    bool interrupts = is_signal(number) && atomic_load(&interrupting) & bit_of(number);
    return set_handler(number, handler, interrupts ? 0 : SA_RESTART, true);
}
EXPORT handler_type bsd_signal(int number, handler_type handler) { return signal(number, handler); }
EXPORT handler_type ssignal(int number, handler_type handler) { return signal(number, handler); }
EXPORT handler_type __sysv_signal(int number, handler_type handler) {
    return set_handler(number, handler, (int)(SA_RESETHAND | SA_NODEFER), false);
}
EXPORT handler_type sysv_signal(int number, handler_type handler) { return __sysv_signal(number, handler); }

EXPORT int siginterrupt(int number, int interrupts) {
    REAL(int, siginterrupt, int, int)
    int result = real(number, interrupts);
    if (!result) note_bit(&interrupting, number, interrupts != 0);
    return result;
}

/* What was set past the logger. */
static void adopt(int number) {
    struct sigaction now;
    if (!set(number, NULL, &now) && now.sa_sigaction != comes) sigaction(number, &now, NULL);
}
EXPORT handler_type sigset(int number, handler_type handler) {
    REAL(handler_type, sigset, int, handler_type)
    uintptr_t was = is_signal(number) ? atomic_load(&handlers[number]) : 0;
    struct sigaction before = {.sa_handler = real(number, handler)};
    if (is_signal(number)) adopt(number);
    if (before.sa_handler != SIG_ERR) tell(&before, was);
    return before.sa_handler;
}

bool aero_is_handled(int signal) { return atomic_load(&handled) & bit_of(signal); }

void aero_signals_start(void) {
    for (int number = 1; number < SIGNALS; number++) adopt(number);
}
