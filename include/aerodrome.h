/* Aerodrome's library for C: you feed a trace in pieces, and the library judges it. docs/library.md has an example.
 *
 * A program has a `struct aerodrome`, which owns the trace that you feed; AERODROME_NONE owns no trace. Each call returns a status.
 * If a pointer is NULL, or a length is above PTRDIFF_MAX, the call changes nothing and returns AERODROME_NULL; NULL with the length
 * 0 means no bytes.
 *
 * Use a struct only on the thread that began its trace, and use no copy of it. Make no call in a signal handler, or in the forked child
 * of a process with threads. The memory behind the pointers of one call must not overlap: for example, `size` must not lie inside
 * `buffer`. If NDEBUG isn't defined, an assertion checks this.
 *
 * The functions named aerodrome_held_ are in the library. Their contracts are proved, for pointers that aren't NULL and memory that
 * doesn't overlap. The functions in this header aren't proved.
 */
#ifndef AERODROME_H
#define AERODROME_H

#include <assert.h>
#include <stdbool.h>
#include <stddef.h>
#include <stdint.h>
#include <string.h>

#ifdef __cplusplus
extern "C" {
#endif

/* The status that a call returns. */
enum {
    AERODROME_DONE = 0,
    AERODROME_UNHELD = 1,      /* the struct owns no trace: none was begun, or it was judged or freed */
    AERODROME_IN_USE = 2,      /* the struct owns a trace already */
    AERODROME_NO_MEMORY = 3,   /* memory is or was refused: each later call for the trace returns this too */
    AERODROME_SHORT = 4,       /* the buffer is too small */
    AERODROME_NO_NAME = 5,     /* a label, a thread or a target isn't a name, or the last label has no newline after it */
    AERODROME_MANY_LABELS = 6, /* there are more than 64 labels */
    AERODROME_NULL = 7,        /* a pointer is NULL, or a length is above PTRDIFF_MAX */
    AERODROME_NO_EVENT = 8,    /* there is no such operation, or it needs a target and has none, or takes no target and has one */
    AERODROME_NO_FLAG = 9      /* a flag isn't one of those below */
};

/* The operation of an event. */
enum {
    AERODROME_READ = 0,
    AERODROME_WRITE = 1,
    AERODROME_ACQUIRE = 2,
    AERODROME_RELEASE = 3,
    AERODROME_FORK = 4,
    AERODROME_JOIN = 5,
    AERODROME_BEGIN = 6,
    AERODROME_END = 7
};

/* What a trace is begun with: one of these, or the sum of several. */
enum {
    AERODROME_LONG = 1,      /* a limit of 4,000,000,000 lines, as with `--long` */
    AERODROME_ONLY = 2,      /* only the blocks with the labels are treated as atomic, as with `--only` */
    AERODROME_EXPLAIN = 4,   /* aerodrome_cycle shows a violation, as aerodrome_begin_explained says */
    AERODROME_END_BLOCKS = 8 /* open blocks end where their thread is joined, and at the end of the trace, as with `--end` */
};

/* The kind of a verdict. */
enum {
    AERODROME_SERIALIZABLE = 0,
    AERODROME_OPEN = 1,
    AERODROME_VIOLATION = 2,
    AERODROME_MALFORMED = 3,
    AERODROME_ILL_FORMED = 4
};

/* A trace, or none. Only the library uses its fields. */
struct aerodrome {
    void *at;
    bool is_held;
};

#ifdef __cplusplus
#define AERODROME_NONE (aerodrome{NULL, false})
#else
#define AERODROME_NONE ((struct aerodrome){NULL, false})
#endif

/* A verdict: its kind and its numbers. A number that doesn't belong to the kind is 0. Lines count from 1. */
struct aerodrome_verdict {
    uint32_t kind;
    uint32_t line;        /* of the closing event, the malformed line or the ill-formed event */
    uint32_t begun;       /* the line on which the block of a violation begins */
    uint32_t events;
    uint32_t blocks;
    uint32_t open_blocks;
};

/* A buffer of this many bytes is long enough for aerodrome_verdict: a name has at most 255 bytes, a number at most 10 digits. */
#define AERODROME_LINE 512

uint32_t aerodrome_held_begin(struct aerodrome *, bool);
uint32_t aerodrome_held_begin_labelled(struct aerodrome *, bool, const void *, size_t, bool);
uint32_t aerodrome_held_begin_explained(struct aerodrome *, bool, const void *, size_t, bool);
uint32_t aerodrome_held_begin_with(struct aerodrome *, uint32_t, const void *, size_t);
uint32_t aerodrome_held_feed(struct aerodrome *, const void *, size_t);
uint32_t aerodrome_held_certain(struct aerodrome *, uint32_t *);
uint32_t aerodrome_held_cycle(struct aerodrome *, char *, size_t, size_t *);
uint32_t aerodrome_held_verdict(struct aerodrome *, struct aerodrome_verdict *, char *, size_t, size_t *);
uint32_t aerodrome_held_free(struct aerodrome *);

/* Whether `bytes` can have this length. */
static inline bool aerodrome_may_be(const void *bytes, size_t length)
{
    return (bytes != NULL || length == 0) && length <= PTRDIFF_MAX;
}

/* Whether two pieces of memory don't overlap. */
static inline bool aerodrome_are_apart(const void *one, size_t length, const void *other, size_t other_length)
{
    uintptr_t from = (uintptr_t)one, other_from = (uintptr_t)other;
    return length == 0 || other_length == 0 || (from < other_from ? other_from - from >= length : from - other_from >= other_length);
}

/* Begins a trace of at most 2^28 lines, or of at most 4,000,000,000 lines with `is_long`. Returns AERODROME_IN_USE if the struct owns a
 * trace, which doesn't change, and AERODROME_NO_MEMORY if memory is refused; then the struct owns no trace. */
static inline uint32_t aerodrome_begin(struct aerodrome *monitor, bool is_long)
{
    if (monitor == NULL) {
        return AERODROME_NULL;
    }
    return aerodrome_held_begin(monitor, is_long);
}

/* Does the same with at most 64 labels, each with a newline after it. Blocks with one of these labels aren't treated as atomic, as with
 * `--except`. With `is_only`, only these blocks are treated as atomic, as with `--only`. If labels are refused, the struct owns no
 * trace. */
static inline uint32_t aerodrome_begin_labelled(struct aerodrome *monitor, bool is_long, const char *labels, size_t length, bool is_only)
{
    if (monitor == NULL || !aerodrome_may_be(labels, length)) {
        return AERODROME_NULL;
    }
    assert(aerodrome_are_apart(monitor, sizeof *monitor, labels, length));
    return aerodrome_held_begin_labelled(monitor, is_long, labels == NULL ? "" : labels, length, is_only);
}

/* Does the same, with labels or without, for a trace whose violation aerodrome_cycle shows. Until an event completes a telling cycle, the
 * library also keeps 28 bytes for each event that can be in such a cycle, and the labels of begins among them. */
static inline uint32_t aerodrome_begin_explained(struct aerodrome *monitor, bool is_long, const char *labels, size_t length, bool is_only)
{
    if (monitor == NULL || !aerodrome_may_be(labels, length)) {
        return AERODROME_NULL;
    }
    assert(aerodrome_are_apart(monitor, sizeof *monitor, labels, length));
    return aerodrome_held_begin_explained(monitor, is_long, labels == NULL ? "" : labels, length, is_only);
}

/* Does the same with the flags above, or with 0, and with labels or without. Returns AERODROME_NO_FLAG for any other flag, and then changes
 * nothing. Blocks that are open at the end of the trace end in aerodrome_verdict, so aerodrome_cycle doesn't show a cycle that only such an
 * end completes. */
static inline uint32_t aerodrome_begin_with(struct aerodrome *monitor, uint32_t flags, const char *labels, size_t length)
{
    if (monitor == NULL || !aerodrome_may_be(labels, length)) {
        return AERODROME_NULL;
    }
    if (flags > (AERODROME_LONG | AERODROME_ONLY | AERODROME_EXPLAIN | AERODROME_END_BLOCKS)) {
        return AERODROME_NO_FLAG;
    }
    assert(aerodrome_are_apart(monitor, sizeof *monitor, labels, length));
    return aerodrome_held_begin_with(monitor, flags, labels == NULL ? "" : labels, length);
}

/* Feeds the next piece of the trace, of any length: you may cut lines anywhere. */
static inline uint32_t aerodrome_feed(struct aerodrome *monitor, const void *bytes, size_t length)
{
    if (monitor == NULL || !aerodrome_may_be(bytes, length)) {
        return AERODROME_NULL;
    }
    assert(aerodrome_are_apart(monitor, sizeof *monitor, bytes, length));
    return aerodrome_held_feed(monitor, bytes == NULL ? "" : bytes, length);
}

/* Whether the text is a name: 1 to 255 bytes, without `|` and without control characters except the tab. */
static inline bool aerodrome_is_name(const char *name)
{
    size_t length = 0;
    for (; name[length] != 0; length++) {
        unsigned char byte = (unsigned char)name[length];
        if (length == 255 || byte == '|' || byte == 127 || (byte < 32 && byte != '\t')) {
            return false;
        }
    }
    return length != 0;
}

static inline bool aerodrome_is_blank(char byte)
{
    return byte == ' ' || byte == '\t';
}

/* Feeds the next event as a line. The bytes that you fed before have to end with a newline. The target of an end is NULL, the target of a
 * begin is its label or NULL, and every other operation needs a target. A call that returns AERODROME_NO_EVENT or AERODROME_NO_NAME changes
 * nothing. A thread whose name begins or ends with a blank is refused. */
static inline uint32_t aerodrome_event(struct aerodrome *monitor, int operation, const char *thread, const char *target)
{
    static const char *const words[] = {"r", "w", "acq", "rel", "fork", "join", "begin", "end"};
    char line[2 * 255 + 10];
    size_t length, more;
    if (monitor == NULL || thread == NULL) {
        return AERODROME_NULL;
    }
    if (operation < AERODROME_READ || operation > AERODROME_END) {
        return AERODROME_NO_EVENT;
    }
    if (target == NULL ? operation < AERODROME_BEGIN : operation == AERODROME_END) {
        return AERODROME_NO_EVENT;
    }
    if (!aerodrome_is_name(thread) || (target != NULL && !aerodrome_is_name(target))) {
        return AERODROME_NO_NAME;
    }
    length = strlen(thread);
    if (aerodrome_is_blank(thread[0]) || aerodrome_is_blank(thread[length - 1])) {
        return AERODROME_NO_NAME;
    }
    memcpy(line, thread, length);
    line[length++] = '|';
    more = strlen(words[operation]);
    memcpy(line + length, words[operation], more);
    length += more;
    if (target != NULL) {
        line[length++] = '(';
        more = strlen(target);
        memcpy(line + length, target, more);
        length += more;
        line[length++] = ')';
    }
    line[length++] = '\n';
    return aerodrome_held_feed(monitor, line, length);
}

/* Judges the lines that were fed since the last such call, and writes 1 if the verdict is certain, whatever bytes follow, and otherwise
 * 0. If you call it after each event, a long trace takes long. */
static inline uint32_t aerodrome_certain(struct aerodrome *monitor, uint32_t *is_certain)
{
    if (monitor == NULL || is_certain == NULL) {
        return AERODROME_NULL;
    }
    assert(aerodrome_are_apart(monitor, sizeof *monitor, is_certain, sizeof *is_certain));
    return aerodrome_held_certain(monitor, is_certain);
}

/* Judges the lines that were fed since the last such call, and shows the violation that is certain by then, by the lines that `--explain`
 * prints under a violation: "  label LABEL" if the block that is blamed has a label, and "  LINE FIRST EVENT" for each event of the
 * cycle. `size` gets the number of bytes of these lines, or 0 if no violation is certain or aerodrome_begin_explained didn't begin the
 * trace. If `buffer` has room, it gets the lines, without a byte 0 at their end; otherwise the call returns AERODROME_SHORT. The struct
 * still owns the trace: call this again with a longer buffer, and call aerodrome_verdict at last. */
static inline uint32_t aerodrome_cycle(struct aerodrome *monitor, char *buffer, size_t length, size_t *size)
{
    char none;
    if (monitor == NULL || size == NULL || !aerodrome_may_be(buffer, length)) {
        return AERODROME_NULL;
    }
    assert(aerodrome_are_apart(monitor, sizeof *monitor, size, sizeof *size));
    assert(aerodrome_are_apart(monitor, sizeof *monitor, buffer, length) && aerodrome_are_apart(size, sizeof *size, buffer, length));
    return aerodrome_held_cycle(monitor, buffer == NULL ? &none : buffer, length, size);
}

/* Judges the trace that was fed, and frees it. `verdict` gets the verdict, and `size` gets the number of bytes that the report has after
 * the input's name, such as ": serializable (5 events, 2 blocks)" with its newline. If `buffer` has room, it gets these bytes, without a
 * byte 0 at their end. Otherwise the call returns AERODROME_SHORT, and still writes `verdict` and `size`. After AERODROME_NO_MEMORY ignore
 * all three. */
static inline uint32_t aerodrome_verdict(struct aerodrome *monitor, struct aerodrome_verdict *verdict, char *buffer, size_t length,
                                         size_t *size)
{
    char none;
    if (monitor == NULL || verdict == NULL || size == NULL || !aerodrome_may_be(buffer, length)) {
        return AERODROME_NULL;
    }
    assert(aerodrome_are_apart(monitor, sizeof *monitor, verdict, sizeof *verdict));
    assert(aerodrome_are_apart(monitor, sizeof *monitor, size, sizeof *size));
    assert(aerodrome_are_apart(monitor, sizeof *monitor, buffer, length));
    assert(aerodrome_are_apart(verdict, sizeof *verdict, size, sizeof *size));
    assert(aerodrome_are_apart(verdict, sizeof *verdict, buffer, length) && aerodrome_are_apart(size, sizeof *size, buffer, length));
    return aerodrome_held_verdict(monitor, verdict, buffer == NULL ? &none : buffer, length, size);
}

/* Frees the trace without a verdict. Returns AERODROME_UNHELD if the struct owns no trace. */
static inline uint32_t aerodrome_free(struct aerodrome *monitor)
{
    if (monitor == NULL) {
        return AERODROME_NULL;
    }
    return aerodrome_held_free(monitor);
}

#ifdef __cplusplus
}
#endif

#endif
