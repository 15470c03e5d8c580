/* The logger: writes what a threaded C or C++ program does as a trace for aerodrome.
 *
 * The wrappers aerodrome-cc and aerodrome-c++ have gcc or clang put its hooks of -fsanitize=thread before each access and at the
 * entry and exit of each function, and link the program with this library in the place of the compiler's own. Its hooks write
 * a log, and check nothing. The functions of the C library that lock, wait and allocate are called by way of it too.
 *
 * The environment of the program says what is logged, and where: settings.c has the variables, docs/logging.md a table of them.
 *
 * What becomes what:
 *
 *   read, atomic load, failed compare-exchange         r(X)
 *   write, atomic store, exchange, fetch-and-..        w(X)
 *   memcpy, memmove, memset, a realloc that moves      r and w of each variable in the range
 *   mutex, spin lock; waiting on a condition           acq(X), rel(X); rel(X), then acq(X)
 *                    that another thread has unlocked  w(X.handed) at each of these from then on
 *   read-write lock: to read, and to give that back    r(rw.X)        readers may overlap, which acq and rel can't say
 *                    to write, and to give that back   w(rw.X)
 *   sem_post, sem_wait                                 w(sem.X.K) before it, r(sem.X.K) after it; semaphores.c says which K
 *   pthread_barrier_wait                               w(bar.X) before it, r(bar.X) after it
 *   pthread_once                                       w(once.X) by who ran it, r(once.X) by others
 *   pthread_create, pthread_join                       fork(T), join(T)
 *   entry and exit of a function that is a block       begin(NAME), end
 *   OpenMP, as gcc compiles it                         openmp.c says what
 *
 * X is the name of a global variable of the program or a library, with +N for the N-th byte in it, and @ADDRESS where others have
 * that name; else an address. parts.c says which bytes are one variable.
 * Memory that is allocated again is a new variable, ADDRESS.N, also where a global variable was, NAME.N. Threads are T1 (main), T2, ..;
 * no number is used again.
 *
 * The place in the code is `program+0x1234`, and the tool aerodrome-places puts FILE:LINE there afterwards. So the program
 * doesn't wait for addr2line, no such process runs beside it, and only the lines that somebody reads are looked up. The place of
 * a begin is that of the call. In a function of std:: it is where the program's own code has called that.
 *
 * One total order. A line is written under the log's lock. An atomic operation is carried out under it. An acquire is logged after
 * the lock is had, a release before it is given back. A plain access is made just after its line: where two of them race, the
 * log may have them the other way round; without data races it has the program's order.
 *
 * The end. At exit, _exit, quick_exit, abort, a failed assert and a signal that ends the process, the ending thread's blocks are
 * ended, and the log is written out; then the command behind `|` is waited for. Blocks of other threads stay open. exec writes the
 * log out, and so does a system call by syscall() or prctl() that ends or restricts the process (calls.c). A process that SIGKILL
 * or an exit of its own machine code ends loses what the buffer holds (up to 1 MiB). A log that ends early ends with a mark (output.c).
 *
 *   fork()       the child logs nothing; where the target has %p it begins a log of its own, in which it is T1. The parent goes on.
 *   signals      a handler's events are its thread's. One that comes into the logger waits until its thread leaves that (signals.c).
 *                Of a handler that no function of the C library has set, which comes at once, nothing is logged then; where it
 *                leaves by longjmp, the event that was about to be logged isn't; while the log is written out, it ends.
 *   longjmp      the functions that it leaves end there. C++ exceptions and pthread_exit end the blocks that they leave.
 *   a thread that ends within blocks or with locks: they are ended and released there.
 *   errors       one line on standard error, and the program goes on unlogged. What was written ends with whole lines and a mark.
 */
#include "log.h"
#include "words.h"

#include <dlfcn.h>
#include <stdio.h>
#include <string.h>
#include <sys/mman.h>
#include <sys/syscall.h>
#include <unistd.h>

/* More than a line ever has. */
#define MOST_LINE 4096
/* The checker takes one more, which is that of the mark. */
#define MOST_THREADS 65535

atomic_int aero_state;
int aero_grain;
__thread struct thread aero_me;

lock_word aero_log_lock;
static atomic_int last_number;

void *aero_next(struct next *next) {
    void *found = next->version ? dlvsym(RTLD_NEXT, next->name, next->version) : NULL;
    if (!found) found = dlsym(RTLD_NEXT, next->name);
    atomic_store_explicit(&next->function, found, memory_order_relaxed);
    return found;
}

/* The linker names the two ends of the section. */
void aero_find_next(void) {
    extern struct next *const __start_aero_nexts[], *const __stop_aero_nexts[];
    for (struct next *const *one = __start_aero_nexts; one < __stop_aero_nexts; one++) aero_next(*one);
}

/* By the system call, since mmap itself is one of the functions that are logged. */
void *aero_pages(size_t bytes) {
    long at = syscall(SYS_mmap, NULL, bytes, PROT_READ | PROT_WRITE, MAP_PRIVATE | MAP_ANONYMOUS | MAP_NORESERVE, -1, 0L);
    return at == -1 ? NULL : (void *)at;
}

void aero_free_pages(void *at, size_t bytes) {
    if (at) syscall(SYS_munmap, at, bytes);
}

bool aero_has_room(void **items, size_t size, size_t count, size_t *room) {
    if (LIKELY(count < *room)) return true;
    size_t more = *room ? 2 * *room : 4096 / size;
    char *at = aero_pages(more * size), *old = *items;
    if (!at) return false;
    for (size_t byte = 0; byte < count * size; byte++) at[byte] = old[byte];
    *items = at;
    aero_free_pages(old, *room * size);
    *room = more;
    return true;
}

static void stop_before_too_many(void) {
    int before = aero_me.busy;
    aero_me.busy = 1;
    aero_lock();
    aero_stop(CUT_THREADS, "it has more than 65535 threads");
    aero_unlock();
    aero_be_busy_as(before);
}
int aero_next_number(void) {
    int number = atomic_fetch_add(&last_number, 1) + 1;
    if (UNLIKELY(number == MOST_THREADS + 1)) stop_before_too_many();
    return number;
}
void aero_number(int number) {
    aero_me.number = number;
    aero_me.length = snprintf(aero_me.prefix, sizeof aero_me.prefix, "T%d|", number);
}

void aero_say(const char *what, const char *why) {
    char text[512];
    int length = snprintf(text, sizeof text, "aerodrome-log: %.200s: %.200s\n", what, why);
    if (syscall(SYS_write, STDERR_FILENO, text, (size_t)length) < 0) return;
}

/* ---- writing */

void aero_count_anew(void) { atomic_store(&last_number, 0); }

static inline char *put_target(char *to, const char *kind, uintptr_t address, const char *text) {
    *to++ = '(';
    to = aero_put_text(to, kind);
    to = text ? aero_put_text(to, text) : aero_put_variable(to, address);
    *to++ = ')';
    return to;
}

/* Whether the access `r(X)` or `w(X)` is one to a counter of the compiler's own: of --coverage, -fprofile-.. and -fsanitize-coverage. */
static bool is_counter(const char *name) {
    static const char *const heads[] = {"__gcov", "__llvm_gcov", "__llvm_prf", "__profc_", "__profd_", "__sancov_gen_"};
    if (LIKELY(name[0] != '_' || name[1] != '_')) return false;
    for (size_t one = 0; one < sizeof heads / sizeof *heads; one++)
        if (begins(name, heads[one])) return true;
    return false;
}

void aero_line(const char *operation, const char *kind, uintptr_t address, const char *text, uintptr_t code) {
    if (UNLIKELY(atomic_load_explicit(&aero_state, memory_order_relaxed) != ON)) return;
    char *from = aero_buffer + aero_used;
    memcpy(from, aero_me.prefix, sizeof aero_me.prefix);
    char *to = aero_put_text(from + aero_me.length, operation);
    if (kind) to = put_target(to, kind, address, text);
    if (UNLIKELY(kind && !text && is_counter(from + aero_me.length + 2))) return;
    if (UNLIKELY(code && aero_me.outside)) code = aero_me.outside;
    const struct code *place = code ? aero_code(code) : NULL;
    if (LIKELY(place != NULL)) {
        const char *byte = place->place;
        for (unsigned left = place->length; left; left--) *to++ = *byte++;
    }
    *to++ = '\n';
    size_t now = (size_t)(to - aero_buffer);
    if (UNLIKELY(aero_limit && aero_written + now > aero_limit)) {
        aero_stop(CUT_LIMIT, "AERODROME_LIMIT is reached");
        return;
    }
    atomic_signal_fence(memory_order_seq_cst);
    aero_used = now;
    if (UNLIKELY(now > sizeof aero_buffer - MOST_LINE)) aero_flush();
}

void aero_event(const char *operation, const char *kind, uintptr_t address, uintptr_t code) {
    if (!aero_enter()) return;
    aero_lock();
    aero_line(operation, kind, address, NULL, code);
    aero_unlock();
    aero_leave();
}
