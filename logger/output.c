/* Writes the log's lines out, and marks a log that ends early.
 *
 * The mark is a line of a thread of its own, which begins a block that never ends: the checker reports an open block, so nobody takes the
 * log for a whole one. Its label has the reason.
 *
 * A file has the mark cut:killed behind its lines all the time, since SIGKILL gives no warning. The next lines take its place, behind
 * which the mark is written first: whoever ends the process between the two writes leaves a file with a hole, which the checker refuses.
 * The regular end takes the mark off. On a full disk the mark cut:write is written over the last lines, which have their room already.
 *
 * Near AERODROME_LIMIT the last lines stay in the buffer, so that the mark has room in their place until the regular end.
 *
 * Once the program has restricted its system calls, only `write` may be left. Then the mark stays where it is, lines follow it, and the
 * regular end ends its block. */
#include "log.h"

#include <fcntl.h>
#include <poll.h>
#include <signal.h>
#include <stdio.h>
#include <string.h>
#include <sys/stat.h>
#include <sys/syscall.h>
#include <unistd.h>

static const char killed[] = AERO_KILLED, end_of_mark[] = "aerodrome|end|0\n";
static const char *const marks[] = {[CUT_LIMIT] = AERO_MARK("limit"),     [CUT_WRITE] = AERO_MARK("write"),
                                    [CUT_THREADS] = AERO_MARK("threads"), [CUT_MEMORY] = AERO_MARK("memory"),
                                    [CUT_FIBER] = AERO_MARK("fiber"),     [CUT_BLOCKS] = AERO_MARK("blocks")};
enum { KILLED = sizeof killed - 1, MOST_MARK = sizeof AERO_MARK("threads") - 1 };

char aero_buffer[LOG_BUFFER];
volatile size_t aero_used;
uint64_t aero_written, aero_limit;

static enum { PIPE, PLACED, APPENDED } way;    /* lines go into a pipe, to their place in a file, or behind what a file has */
static volatile size_t sent;                   /* so many of the buffer's bytes are written */
static uint64_t marked;                        /* bytes of the file that are its mark, and count as written */
static uint64_t size;                          /* bytes of a file whose lines are placed */
static const char *target;
static volatile bool flushing;

void aero_empty(void) {
    aero_used = sent = 0;
    aero_written = marked = 0;
}

bool aero_has_lines(void) { return aero_used || aero_written > marked; }

void aero_write_to(const char *said) {
    target = said;
    int64_t most = aero_settings.limit;
    struct stat is;
    bool is_file = !fstat(aero_log.number, &is) && S_ISREG(is.st_mode);
    way = is_file ? PLACED : PIPE;
    size = is_file ? (uint64_t)is.st_size : 0;
    aero_limit = most >= 0 ? (uint64_t)most : is_file ? (uint64_t)1 << 30 : 0;
}

/* ---- signals meanwhile */

struct masks {
    sigset_t before, waiting, pending;    /* waiting: while a pipe is waited for */
};

/* Signals wait, but for those by which somebody ends a program that doesn't handle them: they come while a pipe is waited for. */
static void mask_signals(struct masks *it) {
    static const int through[] = {SIGINT, SIGTERM, SIGQUIT, SIGHUP, SIGABRT};
    sigset_t all;
    sigfillset(&all);
    sigpending(&it->pending);
    pthread_sigmask(SIG_BLOCK, &all, &it->before);
    it->waiting = all;
    for (size_t one = 0; one < sizeof through / sizeof *through; one++)
        if (!sigismember(&it->before, through[one]) && !aero_is_handled(through[one])) sigdelset(&it->waiting, through[one]);
    flushing = true;
}

/* Takes back the signal that a failed write has sent, as a pipe or a file takes no more, unless one was pending before. */
static void take_back(int signal, const sigset_t *pending) {
    const struct timespec none = {0, 0};
    sigset_t one;
    sigemptyset(&one);
    sigaddset(&one, signal);
    if (!sigismember(pending, signal)) sigtimedwait(&one, NULL, &none);
}

static void unmask_signals(const struct masks *it, bool has_failed) {
    if (has_failed) {
        take_back(SIGPIPE, &it->pending);
        take_back(SIGXFSZ, &it->pending);
    }
    flushing = false;
    pthread_sigmask(SIG_SETMASK, &it->before, NULL);
}

/* ---- bytes; by system calls, as the functions of the C library let a thread be cancelled */

/* Writes the bytes to the place in the file, and returns how many are there; errno says why they aren't all. */
static size_t put_at(uint64_t place, const char *from, size_t bytes) {
    size_t done = 0;
    while (done < bytes) {
        errno = EBADF;
        if (!aero_is_kept(&aero_log)) break;
        long more = syscall(SYS_pwrite64, aero_log.number, from + done, bytes - done, (long)(place + done));
        if (more > 0) done += (size_t)more;
        else if (more == 0) errno = ENOSPC;
        if (more <= 0 && errno != EINTR) break;
    }
    if (done && size < place + done) size = place + done;
    return done;
}

/* Writes the buffer out up to that byte, and says whether all of it went. A pipe that is full is waited for, and only there signals
 * come through, so that `sent` is right for whoever writes out at the end. */
static bool send_buffer(size_t bytes, const sigset_t *waiting) {
    while (sent < bytes) {
        errno = EBADF;
        if (!aero_is_kept(&aero_log)) return false;
        long more = syscall(SYS_write, aero_log.number, aero_buffer + sent, bytes - sent);
        struct pollfd pipe = {aero_log.number, POLLOUT, 0};
        if (more > 0) sent += (size_t)more;
        else if (more == 0) errno = ENOSPC;
        else if (errno == EAGAIN && syscall(SYS_ppoll, &pipe, 1L, NULL, waiting, (size_t)_NSIG / 8) > 0) continue;
        if (more <= 0 && errno != EINTR) return false;
    }
    return true;
}

/* Takes away what the file has from there on, and says whether that is gone. */
static bool cut_at(uint64_t place) {
    errno = EBADF;
    if (!aero_is_kept(&aero_log) || (size != place && ftruncate(aero_log.number, (off_t)place))) return false;
    size = place;
    return true;
}

/* Ends the file there with the mark, and says whether it could. */
static bool mark_at(uint64_t place, const char *mark) {
    size_t length = strlen(mark);
    return put_at(place, mark, length) == length && cut_at(place + length);
}

/* Puts the text into the empty buffer, and writes it out. */
static bool send_text(const char *text, const sigset_t *waiting) {
    size_t length = strlen(text);
    memcpy(aero_buffer, text, length);
    sent = 0;
    bool is_out = send_buffer(length, waiting);
    sent = 0;
    return is_out;
}

/* ---- lines */

/* Returns the bytes of the buffer's first lines behind which a mark has room below the limit. */
static size_t lines_that_fit(void) {
    size_t most = aero_used;
    if (!aero_limit || aero_written + most + MOST_MARK <= aero_limit) return most;
    most = aero_written + MOST_MARK < aero_limit ? aero_limit - aero_written - MOST_MARK : 0;
    while (most && aero_buffer[most - 1] != '\n') most--;
    return most;
}

/* Writes the lines to the place of the mark, and says whether they all are there with the mark behind them. */
static bool place_lines(size_t bytes) {
    bool is_marked = put_at(aero_written + bytes, killed, KILLED) == KILLED;
    int why = errno;
    sent = put_at(aero_written, aero_buffer, bytes);
    if (sent == bytes && !is_marked) errno = why;
    return sent == bytes && is_marked && cut_at(aero_written + bytes + KILLED);
}

/* Ends what takes no more behind a whole line: a file whose lines are placed with a mark over its last ones. Says whether it could. */
static bool end_full(void) {
    size_t length = strlen(marks[CUT_WRITE]), whole = sent;
    if (way == PLACED) whole = sent > length ? sent - length : 0;
    while (whole && aero_buffer[whole - 1] != '\n') whole--;
    if (way == PIPE || !aero_is_kept(&aero_log)) return true;
    if (way == APPENDED) return !ftruncate(aero_log.number, (off_t)(aero_written + whole));
    if (!size) return aero_remove();    /* an empty log would be taken for one without a violation */
    return mark_at(aero_written + whole, marks[CUT_WRITE]);
}

/* Says that the log has ended, for the last time. */
static void tell_end(const char *why) {
    char text[256];
    snprintf(text, sizeof text, "%.200s: the rest isn't logged", why);
    aero_say(target, text);
}

/* The log ends, as it can't be written to. */
static void give_up(int why) {
    bool is_ended = end_full();
    aero_used = sent = 0;
    if (atomic_exchange(&aero_state, OFF) != ON) return;
    tell_end(why == EPIPE ? "its reader has ended" : why == EBADF ? "the program has closed it" : strerror(why));
    if (!is_ended) aero_say(target, "its last lines can't be replaced by the mark of a log that was cut");
}

/* A child of vfork() has the log of its parent, and may have closed all files of its own. Returns the number to write to meanwhile. */
static int borrow_log(void) {
    char path[64];
    int own = aero_log.number;
    if (aero_is_kept(&aero_log) || getpid() == aero_owner) return own;
    snprintf(path, sizeof path, "/proc/%d/fd/%d", (int)aero_owner, own);
    int file = open(path, O_WRONLY | O_CLOEXEC);
    if (file >= 0) aero_log.number = file;
    return own;
}
static void give_log_back(int own) {
    if (aero_log.number == own || aero_log.number < 0) return;
    close(aero_log.number);
    aero_log.number = own;
}

void aero_flush(void) {
    struct masks masks;
    size_t bytes = lines_that_fit();
    if (!bytes || aero_log.number < 0) return;
    mask_signals(&masks);
    int own = borrow_log();
    bool is_out = way == PLACED ? place_lines(bytes) : send_buffer(bytes, &masks.waiting);
    if (is_out) {
        aero_written += bytes;
        memmove(aero_buffer, aero_buffer + bytes, aero_used - bytes);
        aero_used -= bytes;
        sent = 0;
    } else give_up(errno);
    give_log_back(own);
    unmask_signals(&masks, !is_out);
}

/* ---- the ends of a log */

void aero_cut(enum cut why) {
    struct masks masks;
    aero_flush();
    aero_used = 0;
    if (atomic_exchange(&aero_state, OFF) != ON || aero_log.number < 0) return;
    mask_signals(&masks);
    bool is_marked = way == APPENDED || (way == PLACED ? mark_at(aero_written, marks[why]) : send_text(marks[why], &masks.waiting));
    unmask_signals(&masks, !is_marked);
}

void aero_stop(enum cut cut, const char *why) {
    bool is_on = atomic_load(&aero_state) == ON;
    aero_flush();
    is_on = is_on && atomic_load(&aero_state) == ON;
    aero_cut(cut);
    if (is_on) tell_end(why);
}

/* Writes out what the buffer has, also what leaves no room for the mark, and takes that off. */
static bool make_whole(const struct masks *masks) {
    if (way == PIPE) return send_buffer(aero_used, &masks->waiting);
    if (way == APPENDED) {
        bool is_out = send_buffer(aero_used, &masks->waiting);
        aero_written += aero_used;
        aero_used = sent = 0;
        return is_out && send_text(end_of_mark, &masks->waiting);
    }
    sent = put_at(aero_written, aero_buffer, aero_used);
    return sent == aero_used && cut_at(aero_written + aero_used);
}

void aero_unmark(void) {
    struct masks masks;
    aero_flush();
    if (atomic_load(&aero_state) != ON || aero_log.number < 0) return;
    mask_signals(&masks);
    bool is_whole = make_whole(&masks);
    if (!is_whole) give_up(errno);
    unmask_signals(&masks, !is_whole);
}

void aero_mark(void) {
    struct masks masks;
    sent = 0;
    if (atomic_load(&aero_state) != ON || aero_log.number < 0 || way == PIPE) return;
    mask_signals(&masks);
    bool is_marked = way == PLACED ? mark_at(aero_written, killed) : send_text(killed, &masks.waiting);
    if (way == APPENDED) aero_written += sizeof end_of_mark - 1 + KILLED;
    if (!is_marked) give_up(errno);
    unmask_signals(&masks, !is_marked);
}

void aero_write_only(void) {
    aero_flush();
    if (atomic_load(&aero_state) != ON || way != PLACED) return;
    bool is_marked = mark_at(aero_written, killed) && lseek(aero_log.number, 0, SEEK_END) >= 0;
    if (!is_marked) return;
    way = APPENDED;
    aero_written += KILLED;
    marked = KILLED;
    if (aero_limit) aero_limit -= sizeof end_of_mark - 1;
}

/* The line that was begun isn't written, as what it tells of isn't done. What can't be taken up again there ends the log. */
void aero_interrupted(void) {
    int log = aero_writes();
    if (log && flushing && atomic_exchange(&aero_state, OFF) == ON)
        aero_say(target, "a signal handler has left the logger by longjmp: the rest isn't logged");
    if (log) aero_unlock();
    aero_me.busy = 0;
}
