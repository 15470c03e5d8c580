/* Other processes: children of fork, and programs that take this one's place. */
#include "log.h"

#include <stdarg.h>
#include <sys/syscall.h>
#include <unistd.h>

/* ---- fork */

static bool forked_within;               /* by a signal handler that has come into the logger */
static bool is_forked;                   /* with a log: else there is nothing to do */
static bool is_child;

bool aero_is_child(void) { return is_child; }

static __thread bool becomes_daemon;

/* The log is written out first. By daemon() the parent ends without a word, so it is a whole one then. */
static void before_fork(void) {
    is_forked = aero_log.number >= 0;
    if (!is_forked) return;
    bool within = aero_writes();
    aero_me.busy++;
    if (!within) {
        if (!aero_me.number) aero_meet_thread();
        aero_lock();
        if (becomes_daemon) aero_unmark();
        else aero_flush();
    }
    aero_lock_names();
    aero_lock_threads();
    aero_lock_stacks();
    forked_within = within;
}
static void unlock_all(void) {
    aero_unlock_stacks();
    aero_unlock_threads();
    aero_unlock_names();
}
static void in_parent(void) {
    if (!is_forked) return;
    bool within = forked_within;
    unlock_all();
    if (!within) aero_unlock();
    aero_be_busy_as(aero_me.busy - 1);
}

/* Begins a log of the child's own, in which what it holds, has open and was started by is forgotten. */
static void log_child(void) {
    const char *target = aero_target(aero_settings.target);
    aero_owner = getpid();
    is_child = true;
    aero_number(aero_next_number());
    aero_forget_locks();
    aero_forget_blocks();
    aero_forget_threads();
    atomic_store(&aero_log_lock.sleepers, 0);
    atomic_store(&aero_names_lock.sleepers, 0);
    if (!aero_open(target)) return;
    aero_write_to(target);
    atomic_store(&aero_state, ON);
}
static void in_child(void) {
    if (!is_forked) return;
    bool within = forked_within, logs = atomic_load(&aero_state) == ON && aero_target_is_of_process(aero_settings.target);
    atomic_store(&aero_state, OFF);
    unlock_all();
    aero_close();
    aero_end_command(false);
    aero_empty();
    aero_count_anew();
    aero_unlock();
    aero_forget_handler();
    if (logs) log_child();
    aero_me.busy = within;
}

/* Handlers of others, and what they call, may wait for threads that wait for the log. So the logger's own come first of all: the
 * C library calls the first one last before a fork, and first behind it. */
static bool is_registered;
static void at_first(void) { is_registered = !pthread_atfork(before_fork, in_parent, in_child); }
__attribute__((section(".preinit_array"), used)) static void (*const before_all)(void) = at_first;
bool aero_processes_start(void) {
    if (!is_registered) at_first();
    return is_registered;
}

/* Where no child can be made, the program goes on. */
EXPORT int daemon(int stays, int keeps) {
    REAL(int, daemon, int, int)
    pid_t before = getpid();
    becomes_daemon = true;
    int result = real(stays, keeps);
    becomes_daemon = false;
    if (!result || getpid() != before || !aero_enter()) return result;
    aero_me.error = errno;
    aero_lock();
    aero_mark();
    aero_unlock();
    aero_leave();
    return result;
}

/* ---- children that another way has made, without what pthread_atfork has */

/* The buffer's lines are the parent's, and other threads, which may hold the logger's locks, aren't there. */
void aero_forked_apart(void) {
    if (aero_log.number < 0 || getpid() == aero_owner) return;
    atomic_store(&aero_state, OFF);
}

EXPORT pid_t _Fork(void) {
    REAL(pid_t, _Fork, void)
    pid_t child = real ? real() : fork();
    if (!child) aero_forked_apart();
    return child;
}

/* ---- exec */

static bool is_removed;                  /* the log, as it had no line yet */

/* Another program may take this one's place: what is there is written out, and nobody logs more before that has failed. In a child
 * of vfork() the parent has left what the child has entered, and goes on with the log. */
bool aero_before_exec(void) {
    if (getpid() != aero_owner) {
        aero_me.jumped = true;
        return false;
    }
    if (!aero_enter()) return false;
    aero_lock();
    is_removed = !aero_has_lines() && aero_remove();
    aero_unmark();
    return true;
}
void aero_behind_exec(bool entered) {
    if (!entered) return;
    int error = errno;
    if (is_removed) {
        aero_close();
        if (!aero_open(aero_target(aero_settings.target))) atomic_store(&aero_state, OFF);
        else aero_write_to(aero_target(aero_settings.target));
    } else aero_mark();
    aero_unlock();
    aero_leave();
    errno = error;
}

#define EXEC(name, arguments, ...) \
    EXPORT int name(__VA_ARGS__) { \
        REAL(int, name, __VA_ARGS__) \
        bool entered = aero_before_exec(); \
        int result = real arguments; \
        aero_behind_exec(entered); \
        return result; \
    }
EXEC(execv, (path, words), const char *path, char *const words[])
EXEC(execvp, (path, words), const char *path, char *const words[])
EXEC(execve, (path, words, environment), const char *path, char *const words[], char *const environment[])
EXEC(execvpe, (path, words, environment), const char *path, char *const words[], char *const environment[])
EXEC(fexecve, (file, words, environment), int file, char *const words[], char *const environment[])
EXEC(execveat, (folder, path, words, environment, flags),
     int folder, const char *path, char *const words[], char *const environment[], int flags)

/* Those whose words are arguments, up to a NULL: the words are put into a row. */
#define WORDS(first, list) \
    size_t count = 1; \
    va_list list, again; \
    va_start(list, first); \
    va_copy(again, list); \
    while (va_arg(again, char *)) count++; \
    va_end(again); \
    char *words[count + 1]; \
    words[0] = (char *)first; \
    for (size_t place = 1; place <= count; place++) words[place] = va_arg(list, char *)
EXPORT int execl(const char *path, const char *first, ...) {
    WORDS(first, list);
    va_end(list);
    return execv(path, words);
}
EXPORT int execlp(const char *path, const char *first, ...) {
    WORDS(first, list);
    va_end(list);
    return execvp(path, words);
}
EXPORT int execle(const char *path, const char *first, ...) {
    WORDS(first, list);
    char *const *environment = va_arg(list, char *const *);
    va_end(list);
    return execve(path, words, environment);
}
