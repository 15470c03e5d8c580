/* System calls that the program makes by itself, by syscall(), and prctl: after some of these the log can't be written any more,
 * so it is written out before. */
#include "log.h"

#include <linux/seccomp.h>
#include <sched.h>
#include <stdarg.h>
#include <sys/prctl.h>
#include <sys/stat.h>
#include <sys/syscall.h>
#include <unistd.h>

/* Nothing is asked of the system where no log is open: it may not be allowed. */
static bool has_log(void) { return aero_log.number >= 0 && getpid() == aero_owner && aero_enter(); }

/* Whether no other thread is left; false where the system doesn't say. */
static bool is_last_thread(void) {
    struct stat is;
    return !stat("/proc/self/task", &is) && is.st_nlink == 3;    /* two more than there are threads */
}

/* With the last thread the process ends, and calls nobody. */
static void before_thread_ends(void) {
    if (!has_log()) return;
    aero_lock();
    aero_end_thread();
    aero_flush();
    aero_unlock();
    aero_leave();
    if (is_last_thread()) aero_finish();
}

static void before_filter(void) {
    if (!has_log()) return;
    aero_lock();
    aero_write_only();
    aero_unlock();
    aero_leave();
}

/* What a child of vfork() has entered its parent has left. */
static void note_end(void) { aero_me.jumped |= aero_log.number >= 0 && getpid() != aero_owner; }

/* A child with memory of its own. */
static bool is_fork(long number, const long *with) {
#ifdef SYS_fork
    if (number == SYS_fork) return true;
#endif
#ifdef SYS_clone3
    if (number == SYS_clone3) return !(*(const uint64_t *)with[0] & CLONE_VM);
#endif
    return number == SYS_clone && !(with[0] & CLONE_VM);
}

/* In seccomp's strict mode a thread may read, write and exit only, and the logger needs more. */
static void before_strict_mode(void) {
    if (!has_log()) return;
    aero_lock();
    aero_say("seccomp", "the program asks for its strict mode: the rest isn't logged");
    aero_cut(CUT_WRITE);
    aero_unlock();
    aero_leave();
    aero_finish();
}

EXPORT long syscall(long number, ...) {
    REAL(long, syscall, long, ...)
    long with[6];
    va_list list;
    va_start(list, number);
    for (size_t place = 0; place < 6; place++) with[place] = va_arg(list, long);
    va_end(list);
    if (number == SYS_exit_group || number == SYS_exit) note_end();
    if (number == SYS_exit_group) aero_finish();
    if (number == SYS_exit) before_thread_ends();
    if (number == SYS_seccomp && with[0] == SECCOMP_SET_MODE_STRICT) before_strict_mode();
    if (number == SYS_seccomp) before_filter();
    bool entered = (number == SYS_execve || number == SYS_execveat) && aero_log.number >= 0 && aero_before_exec();
    long result = real(number, with[0], with[1], with[2], with[3], with[4], with[5]);
    if (!result && is_fork(number, with)) aero_forked_apart();
    if (entered) aero_behind_exec(true);
    return result;
}

EXPORT int prctl(int option, ...) {
    REAL(int, prctl, int, ...)
    unsigned long with[4];
    va_list list;
    va_start(list, option);
    for (size_t place = 0; place < 4; place++) with[place] = va_arg(list, unsigned long);
    va_end(list);
    if (option == PR_SET_SECCOMP && with[0] == SECCOMP_MODE_STRICT) before_strict_mode();
    if (option == PR_SET_SECCOMP) before_filter();
    return real(option, with[0], with[1], with[2], with[3]);
}

/* ---- threads and processes by clone */

/* A thread of this kind mostly has the memory of the thread that makes it, also what the logger keeps of that: what the two do can't
 * be told apart. */
static void before_thread(void) {
    if (!has_log()) return;
    aero_lock();
    aero_stop(CUT_THREADS, "the program makes a thread by clone");
    aero_unlock();
    aero_leave();
}

struct cloned {
    int (*start)(void *);
    void *with;
};
/* In a child with memory of its own. */
static int run_apart(void *given) {
    struct cloned cloned = *(struct cloned *)given;
    aero_forked_apart();
    return cloned.start(cloned.with);
}

/* The maker waits for a child that borrows its memory, as one of vfork() does: what that does isn't logged. */
EXPORT int clone(int (*start)(void *), void *stack, int flags, void *with, ...) {
    REAL(int, clone, int (*)(void *), void *, int, void *, ...)
    void *more[3];
    va_list list;
    va_start(list, with);
    for (size_t place = 0; place < 3; place++) more[place] = va_arg(list, void *);
    va_end(list);
    struct cloned cloned = {start, with};
    if (!(flags & CLONE_VM)) return real(run_apart, stack, flags, &cloned, more[0], more[1], more[2]);
    bool is_borrowed = (flags & CLONE_VFORK) && !(flags & CLONE_SETTLS);
    if (!is_borrowed) before_thread();
    bool logs = is_borrowed && aero_enter();
    int result = real(start, stack, flags, with, more[0], more[1], more[2]);
    if (logs) {
        aero_me.error = errno;
        aero_leave();
    }
    return result;
}
