/* Where the log goes: a file, a named pipe, or the command behind `|`. */
#include "log.h"
#include "words.h"

#include <fcntl.h>
#include <signal.h>
#include <stdio.h>
#include <string.h>
#include <sys/file.h>
#include <sys/resource.h>
#include <sys/stat.h>
#include <sys/syscall.h>
#include <sys/wait.h>
#include <unistd.h>

#define NONE {-1, 0, 0}
struct kept aero_log = NONE;
static struct kept command_ends = NONE;     /* reads nothing until the command behind | has ended */
static char folder[4096];                   /* in which the program has started; a child of its may be elsewhere */
static struct kept logs_folder = NONE;      /* that of the logs that children write, which may be in another root */
static char path[2 * sizeof folder];        /* of the log's file */

/* ---- files that are kept open */

static struct kept identity(int number) {
    struct stat is;
    if (number < 0 || fstat(number, &is)) return (struct kept)NONE;
    return (struct kept){number, is.st_dev, is.st_ino};
}

bool aero_is_kept(const struct kept *file) {
    struct kept found = identity(file->number);
    return found.number >= 0 && found.device == file->device && found.node == file->node;
}

/* Closes the file, and says whether what was written to it is there, as far as the system knows. */
static bool drop(struct kept *file) {
    bool is_whole = !aero_is_kept(file) || !close(file->number) || errno == EINTR;
    file->number = -1;
    return is_whole;
}

/* Puts the file where a program that counts on small numbers, or closes all of those, seldom meets it. */
static struct kept out_of_the_way(int file) {
    int moved = file < 0 ? -1 : fcntl(file, F_DUPFD_CLOEXEC, 700);
    if (moved < 0) moved = file < 0 ? -1 : fcntl(file, F_DUPFD_CLOEXEC, 10);
    if (moved < 0) return identity(file);
    close(file);
    return identity(moved);
}

/* Leaves `why` in errno. */
static void close_both(int why) {
    drop(&command_ends);
    drop(&aero_log);
    errno = why;
}

/* ---- the command behind | */

/* What the command is to have: the environment but for AERODROME_LOG. */
static char **without_the_log(void) {
    size_t count = 0, kept = 0;
    while (environ && environ[count]) count++;
    char **rest = aero_pages((count + 1) * sizeof *rest);
    for (size_t place = 0; rest && place < count; place++)
        if (strncmp(environ[place], "AERODROME_LOG=", 14)) rest[kept++] = environ[place];
    return rest;
}

/* The pipes of a command: its input; one that only it can write to, and that is closed once it has ended; and one by which it says why
 * it can't be started. */
enum { INPUT, ENDS, REFUSED, PIPES };

/* Opens them all, or none, and says whether it could. */
static bool open_pipes(int pipes[PIPES][2]) {
    int opened = 0;
    while (opened < PIPES && !pipe2(pipes[opened], O_CLOEXEC)) opened++;
    if (opened == PIPES) return true;
    for (int one = 0; one < opened; one++) {
        close(pipes[one][0]);
        close(pipes[one][1]);
    }
    return false;
}

/* Ends a process that can't start the command, and sends errno to the program. */
static void end_refused(int to) {
    int why = errno;
    syscall(SYS_write, to, &why, sizeof why);
    syscall(SYS_exit_group, 127);
}

static void run_command(const char *command, int pipes[PIPES][2]) {
    char *words[] = {"sh", "-c", (char *)command, NULL}, **rest = without_the_log();
    bool is_ready = rest && !chdir(folder) && dup2(pipes[INPUT][0], STDIN_FILENO) >= 0 && !fcntl(STDIN_FILENO, F_SETFD, 0)
        && !fcntl(pipes[ENDS][1], F_SETFD, 0);
    if (is_ready) syscall(SYS_execve, "/bin/sh", words, rest);
    end_refused(pipes[REFUSED][1]);
}

/* Without what pthread_atfork has: it may be called within that. */
static pid_t plain_fork(void) {
#ifdef SYS_fork
    return (pid_t)syscall(SYS_fork);
#else
    return (pid_t)syscall(SYS_clone, SIGCHLD, 0L, 0L, 0L, 0L);
#endif
}

/* Starts the command as no child of the program, which may wait for any of its own, and says whether there is a process for it. */
static bool start_apart(const char *command, int pipes[PIPES][2]) {
    pid_t between = plain_fork();
    if (between == 0) {
        pid_t process = plain_fork();
        if (process == 0) run_command(command, pipes);
        if (process < 0) end_refused(pipes[REFUSED][1]);
        syscall(SYS_exit_group, 0);
    }
    while (between > 0 && waitpid(between, NULL, 0) < 0 && errno == EINTR) {}
    return between > 0;
}

/* Waits until the command is started, and returns 0, or the errno of what was refused. */
static int refusal(int from) {
    int why = 0;
    ssize_t came;
    do came = read(from, &why, sizeof why);
    while (came < 0 && errno == EINTR);
    return came == sizeof why ? why : 0;
}

/* Where the command can't be started, no log is open, and errno says why. */
static void start_command(const char *command) {
    int pipes[PIPES][2];
    if (!open_pipes(pipes)) return;
    int why = start_apart(command, pipes) ? 0 : errno;
    close(pipes[INPUT][0]);
    close(pipes[ENDS][1]);
    close(pipes[REFUSED][1]);
    if (!why) why = refusal(pipes[REFUSED][0]);
    close(pipes[REFUSED][0]);
    command_ends = out_of_the_way(pipes[ENDS][0]);
    aero_log = out_of_the_way(pipes[INPUT][1]);
    if (why) close_both(why);
}

static void wait_for_command(void) {
    char byte;
    while (aero_is_kept(&command_ends)) {
        ssize_t came = read(command_ends.number, &byte, 1);
        if (came > 0 || (came < 0 && errno == EINTR)) continue;
        break;
    }
    drop(&command_ends);
}

bool aero_is_read_by_command(void) { return command_ends.number >= 0; }

/* ---- the target */

bool aero_target_is_of_process(const char *said) { return strstr(said, "%p") != NULL; }

enum { MOST_DIGITS = 10 };               /* of the number of a process */
bool aero_target_fits(const char *said) {
    size_t length = strlen(said);
    for (const char *at = said; (at = strstr(at, "%p")); at += 2) length += MOST_DIGITS - 2;
    return length < MOST_TARGET;
}

const char *aero_target(const char *said) {
    static char target[MOST_TARGET];
    size_t length = 0;
    for (; *said; said++)
        if (said[0] == '%' && said[1] == 'p') {
            length += (size_t)snprintf(target + length, MOST_DIGITS + 1, "%d", (int)getpid());
            said++;
        } else target[length++] = *said;
    target[length] = 0;
    return target;
}

/* ---- the file */

/* The folder in which children of fork open their logs. Where its name has %p, each has another one. */
static void keep_folder(const char *said) {
    const char *number = strstr(said, "%p"), *slash = strrchr(path, '/');
    if (!number || strchr(number, '/') || logs_folder.number >= 0) return;
    char name[sizeof path];
    snprintf(name, sizeof name, "%.*s/", (int)(slash - path), path);
    logs_folder = out_of_the_way(open(name, O_PATH | O_DIRECTORY | O_CLOEXEC));
}

/* The number of the folder that has the file, whose name in it is `name`. */
static int folder_of(const char **name) {
    *name = aero_is_kept(&logs_folder) ? strrchr(path, '/') + 1 : path;
    return *name == path ? AT_FDCWD : logs_folder.number;
}

/* Until lines are written the file has a text that is no trace before the mark of a program that was killed. Where files may have no byte,
 * writing would end the program. */
static void mark(int file) {
    static const char text[] = "aerodrome-log: the program has ended before it wrote its first lines\n" AERO_KILLED;
    struct rlimit most;
    if (getrlimit(RLIMIT_FSIZE, &most) || most.rlim_cur >= sizeof text) pwrite(file, text, sizeof text - 1, 0);
}

/* Opens the file. One that another process writes its log to stays as it is; so it is emptied only once it is locked. */
static int open_file(void) {
    struct stat is;
    const char *name;
    int at = folder_of(&name), file = openat(at, name, O_WRONLY | O_CREAT | O_CLOEXEC, 0666);
    if (file < 0 || fstat(file, &is) || !S_ISREG(is.st_mode)) return file;
    bool is_written = flock(file, LOCK_EX | LOCK_NB) && errno == EWOULDBLOCK;
    if (!is_written && !ftruncate(file, 0)) {
        mark(file);
        return file;
    }
    int why = is_written ? EWOULDBLOCK : errno;
    close(file);
    errno = why;
    return -1;
}

/* Only the file that this process has opened, if its name still leads to that. */
bool aero_remove(void) {
    const char *name;
    int at = folder_of(&name);
    struct stat is;
    if (!*path || !aero_is_kept(&aero_log) || fstatat(at, name, &is, AT_SYMLINK_NOFOLLOW)) return false;
    bool is_ours = S_ISREG(is.st_mode) && is.st_dev == aero_log.device && is.st_ino == aero_log.node;
    return is_ours && !unlinkat(at, name, 0);
}

/* A pipe that is full is waited for by poll, and writing to it never blocks. Says whether that is so. */
static bool never_blocks(int file) {
    struct stat is;
    return file >= 0 && !fstat(file, &is) && (!S_ISFIFO(is.st_mode) || !fcntl(file, F_SETFL, O_NONBLOCK));
}

bool aero_open(const char *target) {
    bool is_command = *target == '|';
    if (!*folder && !getcwd(folder, sizeof folder)) strcpy(folder, ".");
    *path = 0;
    if (is_command) start_command(target + 1);
    else {
        snprintf(path, sizeof path, "%s%s%s", *target == '/' ? "" : folder, *target == '/' ? "" : "/", target);
        keep_folder(aero_settings.target);
        aero_log = out_of_the_way(open_file());
    }
    if (never_blocks(aero_log.number)) return true;
    close_both(errno);
    refuses_target(target);
    return false;
}

bool aero_close(void) { return drop(&aero_log); }
void aero_end_command(bool waits) {
    if (waits) wait_for_command();
    else drop(&command_ends);
}
