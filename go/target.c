/* Where the log goes. A file is mapped, so that what is written is in it whatever ends the process. The bytes behind the last line
 * are line ends, which the checker skips, and then comes the mark of a log that isn't whole. Lines for a command, a named pipe or a
 * device go through memory that another process shares: it writes them on, and goes on with that when the program has ended.
 *
 * The mark is a line that begins a block which never ends. While the program runs it says cut:killed; the regular end takes it off. A log
 * that ends early has it right behind its last line, with the reason. So there is always room for it. */
#include "log.h"
#include "../logger/words.h"

#include <fcntl.h>
#include <linux/futex.h>
#include <poll.h>
#include <signal.h>
#include <stdio.h>
#include <stdlib.h>
#include <sys/file.h>
#include <sys/mman.h>
#include <sys/prctl.h>
#include <sys/resource.h>
#include <sys/stat.h>
#include <sys/syscall.h>
#include <sys/wait.h>
#include <time.h>
#include <unistd.h>

enum { WINDOW = 1 << 20, PAGE = 4096, BLINK = 20, MARK = 32 };     /* BLINK: milliseconds. MARK: room for the longest mark */
static char path[8192];
static uint64_t limit, written;      /* written: bytes of whole lines */
static char *end_of_last;            /* where the line end of the last line lies in the window */

/* Puts the mark's text there, and returns its length. */
static size_t put_mark(char *to, const char *cause) {
    return (size_t)(aero_put(aero_put(aero_put(to, "aerodrome|begin(cut:"), cause), ")|0\n") - to);
}

/* ---- files that are kept open, whose numbers the program may close and use for files of its own */

static struct kept {
    int number;
    dev_t device;
    ino_t node;
} file = {-1, 0, 0};

static bool is_kept(void) {
    struct stat is;
    return file.number >= 0 && !fstat(file.number, &is) && is.st_dev == file.device && is.st_ino == file.node;
}

/* Puts the file where a program that counts on small numbers, or closes all of those, seldom meets it. */
static int out_of_the_way(int number) {
    int moved = number < 0 ? -1 : fcntl(number, F_DUPFD_CLOEXEC, 700);
    if (moved < 0 && number >= 0) moved = fcntl(number, F_DUPFD_CLOEXEC, 10);
    if (moved < 0) return number;
    close(number);
    return moved;
}

/* ---- a file; while the program runs it has lines, line ends, and the mark, one behind the other */

static char *window, *line_ends;
static off_t window_at;
static uint64_t mark_at, file_end;     /* where the mark begins, and ends. Lines end before it */

/* Until lines are written the file has a text that is no trace in the place of the mark: the log of a program that was killed before
 * that is refused. Where files may have no byte, writing would end the program. */
static void begin_file(void) {
    static const char text[] = "aerodrome-log: the program has ended before it wrote its first lines";
    struct rlimit most;
    if (!getrlimit(RLIMIT_FSIZE, &most) && most.rlim_cur < sizeof text) return;
    ssize_t had = pwrite(file.number, text, sizeof text - 1, 0);
    if (had > 0) file_end = (uint64_t)had;
}

/* Makes the file longer, up to there if it can be, and sets *why to 0 if it can. A write that fails because files may not be longer
 * sends a signal, which would end a Go program. So it waits meanwhile, and is taken back. Line ends are written, not only the file's
 * length: a full disk is an error then, and no SIGBUS in the mapped file. Returns where the file ends. */
static uint64_t lengthen(uint64_t end, int *why) {
    const struct timespec none = {0, 0};
    uint64_t at = file_end;
    sigset_t too_long, before;
    sigemptyset(&too_long);
    sigaddset(&too_long, SIGXFSZ);
    pthread_sigmask(SIG_BLOCK, &too_long, &before);
    *why = 0;
    while (at < end && !*why) {
        ssize_t some = pwrite(file.number, line_ends, end - at < WINDOW ? end - at : WINDOW, (off_t)at);
        if (some > 0) at += (uint64_t)some;
        else if (some == 0 || errno != EINTR) *why = some ? errno : ENOSPC;
    }
    if (*why == EFBIG) sigtimedwait(&too_long, NULL, &none);
    pthread_sigmask(SIG_SETMASK, &before, NULL);
    return at;
}

/* Where the file is to end for a window that begins there: not behind the limit, but with room for a mark behind the one that it has. */
static uint64_t next_end(off_t from) {
    uint64_t end = (uint64_t)from + WINDOW;
    if (limit && end > limit) end = limit;
    return end < file_end + MARK ? file_end + MARK : end;
}

/* Maps the window in which the next line begins, with the end of the last line. The mark that the file has goes only when the one at
 * the new end is there. Where less can be written, the window ends earlier. */
static const char *next_window(size_t length) {
    int why;
    off_t from = written ? ((off_t)written - 1) & ~(off_t)(PAGE - 1) : 0;
    if (!is_kept()) return "the program has closed it";
    uint64_t old_mark = mark_at, old_end = file_end, end = lengthen(next_end(from), &why);
    if (end < old_end + MARK || end < written + length + MARK) return strerror(why ? why : ENOSPC);
    char *mapped = mmap(NULL, WINDOW, PROT_READ | PROT_WRITE, MAP_SHARED, file.number, from);
    if (mapped == MAP_FAILED) return strerror(errno);
    if (window) munmap(window, WINDOW);
    window = mapped;
    window_at = from;
    mark_at = end - MARK;
    file_end = end;
    put_mark(window + ((off_t)mark_at - from), "killed");
    atomic_signal_fence(memory_order_seq_cst);
    memset(window + ((off_t)old_mark - from), '\n', old_end - old_mark);
    end_of_last = written ? window + ((off_t)written - 1 - from) : NULL;
    return NULL;
}

/* The end of the line before becomes a blank while the line is copied, so that what is there of it belongs to the place of the line
 * before, which the checker doesn't look at. So each line is there as a whole or not at all, wherever the process is killed. */
static const char *write_into_file(const char *line, size_t length) {
    const char *why = written + length > mark_at || !window ? next_window(length) : NULL;
    if (why) return why;
    char *to = window + ((off_t)written - window_at);
    volatile char *last = end_of_last;
    if (last) *last = ' ';
    atomic_signal_fence(memory_order_seq_cst);
    memcpy(to, line, length);
    atomic_signal_fence(memory_order_seq_cst);
    if (last) *last = '\n';
    end_of_last = to + length - 1;
    return NULL;
}

/* The file ends behind its last line, or behind the mark. One without a line keeps its text. One that the program has closed keeps
 * its length, but no other mark. */
static const char *end_file(const char *cause) {
    if (!window) return NULL;
    if (cause) written += put_mark(window + ((off_t)written - window_at), cause);
    if (is_kept()) return ftruncate(file.number, (off_t)written) ? strerror(errno) : NULL;
    uint64_t from = written > mark_at ? written : mark_at;
    memset(window + ((off_t)from - window_at), '\n', file_end - from);
    return NULL;
}

/* Opens the file. One that another process writes its log to stays as it is; so it is emptied only once it is locked. A named pipe waits
 * for its reader. */
static int open_file(void) {
    struct stat is;
    bool is_pipe = !stat(path, &is) && S_ISFIFO(is.st_mode);
    int number = is_pipe ? -1 : open(path, O_RDWR | O_CREAT | O_CLOEXEC, 0666);
    if (is_pipe || (number < 0 && (errno == EACCES || errno == ENXIO))) number = open(path, O_WRONLY | O_CLOEXEC);
    if (number < 0 || fstat(number, &is) || !S_ISREG(is.st_mode)) return number;
    bool is_written = flock(number, LOCK_EX | LOCK_NB) && errno == EWOULDBLOCK;
    if (!is_written && !ftruncate(number, 0)) return number;
    int why = is_written ? EWOULDBLOCK : errno;
    close(number);
    errno = why;
    return -1;
}

/* ---- another process that writes the lines on */

static struct shared {
    _Atomic uint64_t filled, taken;  /* bytes, of all that there ever were */
    atomic_int taken_turn;           /* changes whenever some are taken */
    atomic_int error;                /* why it ended */
    atomic_int has_ended, is_all;
    uint64_t base;                   /* what `filled` was when the window was empty */
    char bytes[WINDOW];
} *shared;
static int still_there = -1;         /* the writer sees its end when the program has ended, in whatever way */
static int writer_ends = -1;         /* reads nothing until the writer and the command have ended */
static pid_t writer;

static char **without_the_log(void) {
    size_t count = 0, kept = 0;
    while (environ[count]) count++;
    char **rest = aero_new((count + 1) * sizeof *rest);
    for (size_t place = 0; place < count; place++)
        if (!begins(environ[place], "AERODROME_LOG=")) rest[kept++] = environ[place];
    return rest;
}

/* Becomes the command, or else ends, and sends errno. */
static void run_command(const char *command, int input, int refused) {
    char *words[] = {"sh", "-c", (char *)command, NULL};
    if (dup2(input, STDIN_FILENO) == STDIN_FILENO && !fcntl(STDIN_FILENO, F_SETFD, 0)) execve("/bin/sh", words, without_the_log());
    int why = errno;
    _exit(write(refused, &why, sizeof why) < 0 ? 126 : 127);
}

/* Starts the command, and returns where it reads; -1, and errno, where it can't be started. */
static int start_command(const char *command, pid_t *process) {
    int input[2], refused[2], why = 0;
    if (pipe2(input, O_CLOEXEC) || pipe2(refused, O_CLOEXEC)) return -1;
    *process = fork();
    if (*process == 0) run_command(command, input[0], refused[1]);
    if (*process < 0) why = errno;
    close(input[0]);
    close(refused[1]);
    while (read(refused[0], &why, sizeof why) < 0 && errno == EINTR) {}
    close(refused[0]);
    if (!why) return input[1];
    close(input[1]);
    errno = why;
    return -1;
}

static int write_all(int to, const char *from, uint64_t bytes) {
    while (bytes) {
        ssize_t some = write(to, from, bytes);
        if (some < 0 && errno == EINTR) continue;
        if (some <= 0) return some < 0 ? errno : ENOSPC;
        from += some;
        bytes -= (uint64_t)some;
    }
    return 0;
}

/* Writes on what there is until the program has ended, or no more can be written. */
static int write_on(int to, int program) {
    for (bool is_last = false;;) {
        uint64_t taken = atomic_load(&shared->taken), filled = atomic_load(&shared->filled);
        if (filled > taken) {
            int error = write_all(to, shared->bytes + (taken - shared->base), filled - taken);
            if (error) return error;
            atomic_store(&shared->taken, filled);
            atomic_fetch_add(&shared->taken_turn, 1);
            syscall(SYS_futex, &shared->taken_turn, FUTEX_WAKE, 1, NULL, NULL, 0);
            continue;
        }
        if (is_last) return 0;
        struct pollfd end = {program, POLLIN, 0};
        is_last = poll(&end, 1, BLINK) > 0 || atomic_load(&shared->is_all);
    }
}

/* What ends the program by the terminal lets the writer end its work. A program that is killed leaves the mark to it. */
static void be_the_writer(int to, int program, const char *command) {
    char mark[MARK];
    static const int through[] = {SIGINT, SIGTERM, SIGHUP, SIGQUIT, SIGPIPE, SIGXFSZ};
    pid_t process = 0;
    if (command) to = start_command(command, &process);
    int why = to < 0 ? errno : 0;
    for (size_t one = 0; one < sizeof through / sizeof *through; one++) signal(through[one], SIG_IGN);
    prctl(PR_SET_NAME, "aerodrome-log", 0, 0, 0);
    atomic_store(&shared->error, why ? why : write_on(to, program));
    if (!atomic_load(&shared->error) && !atomic_load(&shared->is_all)) write_all(to, mark, put_mark(mark, "killed"));
    atomic_store(&shared->has_ended, 1);
    syscall(SYS_futex, &shared->taken_turn, FUTEX_WAKE, 1, NULL, NULL, 0);
    close(to);
    while (process > 0 && waitpid(process, NULL, 0) < 0 && errno == EINTR) {}
    _exit(0);
}

/* The writer is no child of the program, which may wait for any of its own. The process that starts it sends its number, or errno below
 * 0. */
static int start_writer(int to, const char *command) {
    int program[2], ends[2];
    shared = mmap(NULL, sizeof *shared, PROT_READ | PROT_WRITE, MAP_SHARED | MAP_ANONYMOUS, -1, 0);
    if (shared == MAP_FAILED || pipe2(program, O_CLOEXEC) || pipe2(ends, O_CLOEXEC)) return -1;
    pid_t between = fork();
    if (between == 0) {
        close(program[1]);
        close(ends[0]);
        pid_t made = fork();
        if (made == 0) be_the_writer(to, program[0], command);
        if (made < 0) made = -errno;
        _exit(write(ends[1], &made, sizeof made) == sizeof made ? 0 : 1);
    }
    int why = errno;
    close(program[0]);
    close(ends[1]);
    if (to >= 0) close(to);
    if (between > 0) while (waitpid(between, NULL, 0) < 0 && errno == EINTR) {}
    errno = why;
    still_there = out_of_the_way(program[1]);
    writer_ends = out_of_the_way(ends[0]);
    if (between < 0 || read(writer_ends, &writer, sizeof writer) != sizeof writer) return -1;
    if (writer < 0) errno = -writer;
    return writer < 0 ? -1 : 0;
}

static const char *error_of_writer(void) {
    int error = atomic_load(&shared->error);
    if (!error) return NULL;
    return error == EPIPE ? "its reader has ended" : strerror(error);
}

/* Waits until the writer has taken all; a writer that was killed doesn't. */
static const char *wait_for_writer(void) {
    const struct timespec while_it_writes = {1, 0};
    while (atomic_load(&shared->taken) < atomic_load(&shared->filled)) {
        int turn = atomic_load(&shared->taken_turn);
        if (atomic_load(&shared->has_ended) || (kill(writer, 0) && errno == ESRCH))
            return error_of_writer() ? error_of_writer() : "its writer was killed";
        if (atomic_load(&shared->taken) < atomic_load(&shared->filled))
            syscall(SYS_futex, &shared->taken_turn, FUTEX_WAIT, turn, &while_it_writes, NULL, 0);
    }
    return NULL;
}

static const char *write_into_pipe(const char *line, size_t length) {
    const char *why = UNLIKELY(atomic_load_explicit(&shared->has_ended, memory_order_relaxed)) ? error_of_writer() : NULL;
    if (!why && written + length > shared->base + WINDOW) {
        why = wait_for_writer();
        shared->base = written;
    }
    if (why) return why;
    memcpy(shared->bytes + (written - shared->base), line, length);
    atomic_store_explicit(&shared->filled, written + length, memory_order_release);
    return NULL;
}

/* The lines end, with the mark if there is a cause and the reader is there still. */
static void end_pipe(const char *cause) {
    char mark[MARK];
    size_t length = cause ? put_mark(mark, cause) : 0;
    if (length && !write_into_pipe(mark, length)) written += length;
    atomic_store(&shared->is_all, 1);
}

/* ---- the target */

bool aero_is_file(void) { return !shared; }
uint64_t aero_written(void) { return written; }

const char *aero_write(const char *line, size_t length, const char **why) {
    *why = "AERODROME_LIMIT is reached";
    if (UNLIKELY(limit && written + length + MARK > limit)) return "limit";
    *why = shared ? write_into_pipe(line, length) : write_into_file(line, length);
    if (UNLIKELY(*why)) return "write";
    written += length;
    return NULL;
}

/* With the process's number in the place of each %p. Says whether there is room for it. */
static bool put_target(const char *said) {
    size_t length = 0;
    if (*said != '/' && *said != '|' && getcwd(path, sizeof path / 2)) length = strlen(strcat(path, "/"));
    for (; *said && length < sizeof path - 24; said++)
        if (said[0] == '%' && said[1] == 'p') {
            length = (size_t)(aero_put_number(path + length, (uint64_t)getpid(), 10) - path);
            said++;
        } else path[length++] = *said;
    path[length] = 0;
    errno = ENAMETOOLONG;
    return !*said;
}

static int open_target(const char *said) {
    struct stat is;
    if (!put_target(said)) return -1;
    if (*path == '|') return start_writer(-1, path + 1);
    int number = open_file();
    if (number < 0 || fstat(number, &is)) return -1;
    if (!S_ISREG(is.st_mode)) return start_writer(number, NULL);
    file = (struct kept){out_of_the_way(number), is.st_dev, is.st_ino};
    line_ends = memset(aero_new(WINDOW), '\n', WINDOW);
    begin_file();
    return 0;
}

bool aero_open(const char *target) {
    if (!open_target(target)) {
        limit = aero_settings.limit >= 0 ? (uint64_t)aero_settings.limit : shared ? 0 : (uint64_t)1 << 30;
        return true;
    }
    refuses_target(target);
    return false;
}

/* Only the file that this process has opened, if its name still leads to that. */
bool aero_remove(void) {
    struct stat is;
    if (shared || !is_kept() || lstat(path, &is)) return false;
    bool is_ours = S_ISREG(is.st_mode) && is.st_dev == file.device && is.st_ino == file.node;
    return is_ours && !unlink(path);
}

const char *aero_end(const char *cause) {
    if (!shared) return end_file(cause);
    end_pipe(cause);
    return NULL;
}

const char *aero_close(void) {
    char byte;
    if (!shared) return NULL;
    close(still_there);
    while (read(writer_ends, &byte, 1) < 0 && errno == EINTR) {}
    return error_of_writer();
}
