/* The logger for Go: writes what an unchanged Go program does as a trace for aerodrome.
 *
 * `go build -race` compiles calls of the race detector's library into a program. The wrapper aerodrome-go gives go a GOROOT of links
 * in which this logger takes the place of that library. Its functions have the library's names (hooks.c); they write a log, and
 * check nothing.
 *
 * What becomes what:
 *
 *   read, write; slices, maps, copies         r(X), w(X), of each variable in the range; nothing on the goroutine's own stack
 *   sync/atomic: load, failed compare-and-swap  r(X.a); anything else w(X.a). Also X, if it is accessed in both ways (access.c)
 *   Mutex                                     acq(X), rel(X). Once another goroutine has unlocked it: w(X.handed). Locks that the
 *                                             standard library takes itself have no events
 *   Cond.Wait                                 rel(X), acq(X) of its mutex
 *   RWMutex: RLock, RUnlock; Lock, Unlock     r(X.rw); w(X.rw)       readers may overlap, which acq and rel can't say
 *   WaitGroup: Done; Wait                     w(X~K), each with a K of its own; r(X~K) of each Done since the last round
 *   channel without a buffer                  w(X~K) by the sender, r(X~K) by the receiver
 *   channel with a buffer                     w(SLOT~) by each who sends or receives through the slot
 *   chan struct{} with a buffer               of 1: w(X~SLOT). Of more: w(X~K), r(X~K); who has sent takes back its own
 *   close; receive of a closed channel        w(X); r(X), where X is also read by each send
 *   Once                                      w(X.a) by who ran it, r(X.a) by who finds it done
 *   sync.Map                                  r(X.a), w(X.a) of the entry of a key
 *   timer                                     w(X~K) where it is set, r(X~K) where it goes off, in a thread of its own
 *   other release; acquire (race.Release ..)  w(X~K); r(X~K) of each that counts
 *   go statement                              fork(T); w(go.T) and r(go.T) where the number T is used again
 *   entry and exit of a function that is a block   begin(NAME), end
 *
 * X is the name of a global variable, main.total, or of what was allocated: main.NewBank#3, by the function that allocated it; +N is
 * the N-th byte in it. Threads are T1, T2, .. A number is used again at a quiet moment (struct numbers of log.h).
 *
 * One total order. A line is written under one lock. An atomic operation is carried out under it. The runtime calls the hook of an
 * acquire once it is had, and that of a release before it is given back. It calls the hook of an access just before the access:
 * where two of these race, the log may have them the other way round.
 *
 * A release writes a variable of its own, so two of them don't conflict, nor does an acquire with a later release; with one variable
 * for all, two Done in each of two blocks would be a cycle that the program doesn't have.
 *
 * The end. os.Exit(3), a panic, a deadlock and SIGKILL end a Go program without a call of any hook. So a line is in the file as soon
 * as it is written (target.c).
 */
#include "log.h"

#include <stdio.h>
#include <stdlib.h>
#include <sys/mman.h>
#include <sys/syscall.h>
#include <unistd.h>

int aero_is_on, aero_open_blocks;
uint64_t aero_now, aero_last_calm;

void aero_say(const char *what, const char *why) {
    char text[512];
    int length = snprintf(text, sizeof text, "aerodrome-log: %.200s: %.200s\n", what, why);
    if (syscall(SYS_write, STDERR_FILENO, text, (size_t)length) < 0) return;
}

void aero_stop(const char *cause, const char *why) {
    char text[256];
    if (!aero_is_on) return;
    aero_is_on = 0;
    aero_end(cause);
    if (!aero_has_lines()) aero_remove();
    snprintf(text, sizeof text, "%.200s: the rest isn't logged", why);
    aero_say(aero_settings.target, text);
}

/* ---- lines */

char *aero_put(char *to, const char *text) {
    while (*text) *to++ = *text++;
    return to;
}

char *aero_put_number(char *to, uint64_t number, unsigned base) {
    char digits[24];
    int count = 0;
    do digits[count++] = "0123456789abcdef"[number % base];
    while (number /= base);
    while (count) *to++ = digits[--count];
    return to;
}

/* The line behind its thread. Each has a place, if only an empty one: target.c counts on that. */
static void finish_line(char *line, char *to, const char *operation, const char *target, const struct code *place) {
    to = aero_put(to, operation);
    if (target) {
        *to++ = '(';
        to = aero_put(to, target);
        *to++ = ')';
    }
    if (place) to = mempcpy(to, place->place, place->place_length);
    else *to++ = '|';
    *to++ = '\n';
    const char *why, *cause = aero_write(line, (size_t)(to - line), &why);
    if (UNLIKELY(cause)) aero_stop(cause, why);
    else aero_now++;
}

static char line[4096];      /* more than one ever has */

void aero_line(struct goroutine *by, const char *operation, const char *target, const struct code *place) {
    if (aero_is_on) finish_line(line, mempcpy(line, by->prefix, by->length), operation, target, place);
}

void aero_numbered_line(uint32_t thread, const char *operation, const char *target) {
    char *to = aero_put_number(aero_put(line, "T"), thread, 10);
    *to++ = '|';
    if (aero_is_on) finish_line(line, to, operation, target, NULL);
}

bool aero_has_lines(void) { return aero_now != 0; }

/* ---- memory */

/* Go programs end where memory is refused, and so does this. */
static void *had(void *at) {
    if (at) return at;
    aero_say("out of memory", "the program ends");
    abort();
}
void *aero_new(size_t size) { return had(calloc(1, size)); }
void *aero_more(void *items, size_t size, size_t *room) {
    *room = *room * 2 + 4;
    return had(realloc(items, *room * size));
}
void *aero_pages(size_t bytes) {
    void *at = mmap(NULL, bytes, PROT_READ | PROT_WRITE, MAP_PRIVATE | MAP_ANONYMOUS | MAP_NORESERVE, -1, 0);
    return at == MAP_FAILED ? NULL : at;
}

/* ---- numbers */

uint32_t aero_take_number(struct numbers *from, bool *is_used_again) {
    *is_used_again = from->first < from->count && aero_is_past(from->back[from->first].when);
    return *is_used_again ? from->back[from->first++].number : ++from->last;
}

void aero_give_back(struct numbers *to, uint32_t number) {
    if (to->count == to->room && to->first >= to->room / 2 && to->first) {
        to->count -= to->first;
        memmove(to->back, to->back + to->first, to->count * sizeof *to->back);
        to->first = 0;
    }
    if (to->count == to->room) to->back = aero_more(to->back, sizeof *to->back, &to->room);
    to->back[to->count++] = (struct given_back){number, aero_now};
}
