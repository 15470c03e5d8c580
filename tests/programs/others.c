/* Other processes: children, and programs that take this one's place. It adds ten times first, in a block each.
 *
 *   others system    forks, so that its log is written out, runs itself by system, as `others nothing`, and adds ten times more
 *   others fork      goes to another folder, where three children add ten times each, one of them from a thread of its own that has
 *                    been in a block at the fork
 *   others apart     a child by each call that makes one without what pthread_atfork has; each adds so often that its log would be
 *                    written out; then it adds ten times more
 *   others spawn     starts programs by posix_spawn, and by vfork and exec in a function of its own; adds ten times more
 *   others daemon    becomes a daemon, whose parent ends within the C library, and says so by the file `done`
 *   others FORM      calls exec..: l, lp, le, v, vp, ve, vpe, fe, at
 *   others fails     exec of no program fails, and it adds ten times more */
#define _GNU_SOURCE
#include <fcntl.h>
#include <pthread.h>
#include <signal.h>
#include <spawn.h>
#include <stdio.h>
#include <stdlib.h>
#include <string.h>
#include <sys/syscall.h>
#include <sys/wait.h>
#include <unistd.h>

extern char **environ;
static const char *self;
static pthread_mutex_t lock = PTHREAD_MUTEX_INITIALIZER;
static long count;
static char *words[] = {"true", NULL};

static void add(void) {
    pthread_mutex_lock(&lock);
    count++;
    pthread_mutex_unlock(&lock);
}
static void add_ten_times(void) {
    for (int times = 0; times < 10; times++) add();
}

static void run_by_system(void) {
    char command[4200];
    if (!fork()) _exit(0);
    wait(NULL);
    snprintf(command, sizeof command, "%s nothing", self);
    if (system(command)) puts("system failed");
    add_ten_times();
}

/* Forks within a block, with the lock held, which the child gives back too. */
static void fork_within(void) {
    pthread_mutex_lock(&lock);
    pid_t child = fork();
    pthread_mutex_unlock(&lock);
    if (child) {
        waitpid(child, NULL, 0);
        return;
    }
    add_ten_times();
    exit(0);
}
static void *forks(void *unused) {
    fork_within();
    return unused;
}
static void fork_three(void) {
    pthread_t thread;
    if (chdir("/")) puts("chdir failed");
    fork_within();
    fork_within();
    pthread_create(&thread, NULL, forks, NULL);
    pthread_join(thread, NULL);
}

static void fork_apart(void) {
    for (int way = 0; way < 3; way++) {
        pid_t child = way == 0 ? _Fork() : way == 1 ? (pid_t)syscall(SYS_fork) : (pid_t)syscall(SYS_clone, SIGCHLD, 0, 0, 0, 0);
        for (int times = 0; !child && times < 1000; times++) add_ten_times();
        if (!child) exit(0);
        waitpid(child, NULL, 0);
    }
    add_ten_times();
}

static void replace(void) {
    execv("/bin/true", words);
    _exit(1);
}
static void vfork_and_replace(void) {
    pid_t child = vfork();
    if (!child) replace();
    waitpid(child, NULL, 0);
}
static void spawn(void) {
    pid_t child;
    if (posix_spawn(&child, "/bin/true", NULL, NULL, words, environ)) puts("posix_spawn failed");
    waitpid(child, NULL, 0);
    for (int times = 0; times < 3; times++) vfork_and_replace();
    add_ten_times();
}

static void become_daemon(void) {
    if (daemon(1, 1)) puts("daemon failed");
    add_ten_times();
    close(open("done", O_CREAT | O_WRONLY, 0600));
}

static void become_true(const char *form) {
    if (!strcmp(form, "l")) execl("/bin/true", "true", NULL);
    if (!strcmp(form, "lp")) execlp("true", "true", NULL);
    if (!strcmp(form, "le")) execle("/bin/true", "true", "with", "words", NULL, environ);
    if (!strcmp(form, "v")) execv("/bin/true", words);
    if (!strcmp(form, "vp")) execvp("true", words);
    if (!strcmp(form, "ve")) execve("/bin/true", words, environ);
    if (!strcmp(form, "vpe")) execvpe("true", words, environ);
    if (!strcmp(form, "fe")) fexecve(open("/bin/true", O_RDONLY), words, environ);
    if (!strcmp(form, "at")) execveat(AT_FDCWD, "/bin/true", words, environ, 0);
}

int main(int count_of_words, char **word) {
    const char *what = count_of_words > 1 ? word[1] : "";
    self = word[0];
    add_ten_times();
    if (!strcmp(what, "system")) run_by_system();
    else if (!strcmp(what, "fork")) fork_three();
    else if (!strcmp(what, "apart")) fork_apart();
    else if (!strcmp(what, "spawn")) spawn();
    else if (!strcmp(what, "daemon")) become_daemon();
    else if (!strcmp(what, "fails")) execl("/no/such/program", "program", NULL), add_ten_times();
    else become_true(what);
    return 0;
}
