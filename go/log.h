/* What the files of the logger for Go share. log.c says what the whole is, and what becomes what. */
#ifndef AERODROME_GO_LOG_H
#define AERODROME_GO_LOG_H

#ifndef _GNU_SOURCE
#define _GNU_SOURCE
#endif
#include <errno.h>
#include <stdatomic.h>
#include <stdbool.h>
#include <stddef.h>
#include <stdint.h>
#include <string.h>
#include <sys/types.h>

typedef uintptr_t word;
_Static_assert(sizeof(word) == 8, "addresses have 64 bits");
/* The files are compiled with hidden names. What Go calls isn't hidden. */
#define EXPORT __attribute__((visibility("default")))
#define LIKELY(condition) __builtin_expect(!!(condition), 1)
#define UNLIKELY(condition) __builtin_expect(!!(condition), 0)

/* Where the goroutine is that calls a hook, from the registers that runtime/race_amd64.s leaves; hooks.c puts it down. */
struct here {
    word stack;              /* r12: the stack pointer that the goroutine had; the first word is where the hook returns to */
    const word *g;           /* r14: its g, which begins with the lower and the upper end of its stack */
    const word *frame;       /* rbp: the frame of the Go function that called */
};

/* What was given back, with the number of lines that the log had then. */
struct given_back {
    uint32_t number;
    uint64_t when;
};
/* Numbers that names have. One is used again if no block was open at some moment since it was given back: then no cycle leads
 * through both, because a cycle has to go back in time within a block. */
struct numbers {
    uint32_t last;
    struct given_back *back;
    size_t first, count, room;
};

/* The text of a function's name, as the log has it; one for each text. */
struct label {
    char *text;
    uint32_t length;
    uint32_t package;        /* the length of the path of its package */
    struct numbers objects;  /* that functions of this name have allocated */
    struct label *next;
};

/* Who asked for something, by the function that the call is in; code.c has the names. */
enum asker {
    PROGRAM, HELPER, NOBODY, GENERIC, VALUE, MUTEX, READER, WRITER, WAIT_GROUP, ONCE, TIMER_FIRES,
    CHANNEL_SEND, CHANNEL_RECEIVE, CHANNEL_OTHER, CHANNEL_SELECT, CHANNEL_CLOSE
};
/* What else a name says. */
enum {
    IS_BLOCK = 1, IS_RUNTIME = 2, IS_LOW = 4, IS_HOOK = 8, IS_SYNC = 16, IS_RACE = 32, IS_MAP = 64, IS_ENTRY = 128,
    IS_ENTRY_LOAD = 256, IS_COND_WAIT = 512, SENDS = 1024, RUNS_TIMERS = 2048, RETURNS_BY_DEFERRED = 4096, PANICS = 8192,
    IS_LIBRARY = 16384, IS_QUIET = 32768, IS_UNKNOWN = 65536, ENDS_PROGRAM = 131072,
    LOADS_OR_STORES = 262144, DELETES = 524288, IS_WRAPPER = 1048576, COMPARES = 2097152, LOADS = 4194304, ONLY_READS = 8388608
};
/* A return address: the function that it is in, and the function whose source it is of, which may be inlined there. */
struct code {
    word at;
    struct label *label;     /* of the function that is compiled */
    char *place;             /* "|file.go:12" */
    uint32_t place_length;
    int line;
    unsigned is;             /* IS_BLOCK and so on */
    enum asker asker;
    enum { UNSEEN, ONLY_ENDS, GOES_ON } ends;    /* what defers.c has found there */
};

enum block_state { NO_BLOCK, WAITING, OPEN };    /* WAITING: its begin is written with the first event in it */
struct frame {
    word depth;              /* from the stack's upper end to the stack pointer: it stays the same if the stack moves */
    struct code *function, *call;
    enum block_state block;
    bool is_start;           /* of what the goroutine starts with */
    bool is_quiet;           /* a Once of the library calls it */
};
/* A goroutine, or the timers of a processor: a racectx of the runtime. */
struct goroutine {
    uint64_t id;             /* no other one ever has it */
    uint32_t number;         /* in the log; 0: none yet, because it has logged nothing */
    uint32_t length;
    char prefix[16];         /* "T12|" */
    const word *g;           /* its g, once it has entered a function */
    struct frame *frames;
    size_t depth, room;
    size_t begun;            /* the blocks of the first `begun` frames are written */
    int open;                /* so many blocks are open */
    int ignores;             /* race.Disable */
    int is_timer;            /* runs timers */
    int half;                /* within RWMutex.Lock, which acquires twice */
    word boxed;              /* the atomic.Value whose first word it has touched */
    bool is_boxing;          /* it has taken that word, for the first store */
    bool is_own_once;        /* the Once that it has found undone is the library's */
    struct code *go;         /* the go statement */
};

/* A release that an acquire has to read. */
struct release {
    uint64_t by;             /* the id of the goroutine */
    uint32_t slot;           /* it wrote the variable ADDRESS~SLOT */
    uint64_t when;
};
/* What is known of an address by which goroutines are ordered. */
struct sync {
    word at;
    struct sync *next;       /* in the table */
    struct sync *sibling;    /* of the same object */
    uint64_t owner;          /* of a mutex: the id of the goroutine that has it, 0: nobody */
    uint32_t owner_number;
    uint64_t sender;         /* of what is in the slot of a channel, or 0 */
    uint64_t taker;          /* of the latest message of another goroutine in the slot of a channel, or 0 */
    uint64_t closer;         /* of a channel */
    bool is_handed;          /* a mutex that another goroutine has unlocked */
    uint64_t unlocker;       /* of a mutex, or a RWMutex for writing, that another goroutine had locked, or 0 */
    uint64_t writer;         /* who has locked a RWMutex for writing latest */
    unsigned holders;        /* of a RWMutex, by the program */
    unsigned step;           /* of the steps that the runtime calls for one message */
    bool is_merged;          /* a WaitGroup in a round of Done */
    bool is_by_several;      /* the round's Done are of several goroutines */
    uint64_t doer;           /* of the round's first Done, or 0 */
    uint32_t slots;
    size_t count, room;
    struct release *releases;
};
/* What was allocated. */
struct object {
    word at;
    uint32_t units, number;  /* units of 8 bytes. number: in its name, 0: none yet */
    struct label *by;
    struct sync *syncs;
    uint64_t owner;          /* AERODROME_LOCAL: the id of the only goroutine that has touched it */
    bool is_shared;
};

/* own_lock.c */
void aero_lock(void);
bool aero_lock_soon(void);
void aero_unlock(void);

/* log.c */
extern int aero_is_on;                         /* read without the lock, set with it */
extern uint64_t aero_now;                      /* the number of lines so far */
extern uint64_t aero_last_calm;                /* what it was when the last open block ended */
extern int aero_open_blocks;
/* No block was open at some moment since the log had so many lines. */
static inline bool aero_is_past(uint64_t when) { return !aero_open_blocks || when < aero_last_calm; }
void aero_say(const char *what, const char *why);
/* Says why; the log ends with its last whole line, and a mark behind that, which has the cause: limit, write or threads. */
void aero_stop(const char *cause, const char *why);
void aero_line(struct goroutine *by, const char *operation, const char *target, const struct code *place);
void aero_numbered_line(uint32_t thread, const char *operation, const char *target);    /* for a goroutine that may have ended */
bool aero_has_lines(void);
char *aero_put(char *to, const char *text);
char *aero_put_number(char *to, uint64_t number, unsigned base);
void *aero_more(void *items, size_t size, size_t *room);    /* twice the room; never NULL: without memory the program ends */
void *aero_new(size_t size);
void *aero_pages(size_t bytes);                /* zeroed address space, or NULL */
uint32_t aero_take_number(struct numbers *from, bool *is_used_again);
void aero_give_back(struct numbers *to, uint32_t number);

/* target.c */
bool aero_open(const char *target);            /* whether the log could be opened, else it says why not */
/* Writes a line, so that the log has all of it or nothing of it. Returns NULL, or the cause, of which `why` says more. */
const char *aero_write(const char *line, size_t length, const char **why);
uint64_t aero_written(void);                   /* bytes */
bool aero_is_file(void);
bool aero_remove(void);                        /* removes the file, which has no line, and says whether it did */
/* No line comes any more. A cause: the log isn't whole. Returns why something has failed, or NULL. */
const char *aero_end(const char *cause);
const char *aero_close(void);                  /* waits for the command; why it has failed, or NULL */

/* settings.c */
struct settings {
    const char *target, *blocks;
    int grain, places;
    bool skips_local, splits_waits, splits_threads, both_ways;
    int64_t limit;                             /* -1: not said */
};
extern struct settings aero_settings;
bool aero_read_settings(const char *target);   /* whether they can be used, else it says why not */

static inline bool aero_ends_with(const char *text, const char *end) {
    size_t length = strlen(text), most = strlen(end);
    return length >= most && !strcmp(text + length - most, end);
}

/* choice.c */
bool aero_read_blocks(const char *blocks);     /* whether the list can be read */
bool aero_knows_blocks(void);                  /* whether each name is that of a function; else it says which isn't */
bool aero_is_block(const char *label, const char *file);
bool aero_starts_are_blocks(void);
bool aero_wants_blocks(void);                  /* there may be some */

/* What aerodrome-go has compiled for the version of Go. */
extern const char aero_packages[];             /* those of the standard library, each between two newlines */
extern const int aero_select_send;             /* the line of select.go that sends into a buffer */
extern const int aero_defers_of_g;             /* where a g has its latest _defer; 0: not known */
extern const int aero_link_of_defer, aero_panics_of_g, aero_link_of_panic, aero_recovered_of_panic;    /* the last is 0 if they aren't known */
extern const int aero_sched_of_g, aero_frame_of_sched;    /* where a g that doesn't run has its stack pointer; where its frame lies behind that */
extern const int aero_closed_of_channel;       /* where a channel has whether it is closed */
extern const int aero_writer_sem, aero_reader_sem;    /* where a RWMutex has these, by which it is known to the hooks */

/* code.c */
void aero_code_start(void (*callback)(word, void *), const word *g);
struct code *aero_code(word at);
struct label *aero_label(const char *name);     /* of the name in Go's tables */
bool aero_is_of_library(const char *label);
bool aero_is_init(const char *label);
bool aero_is_given_to(const struct label *starter, const struct label *value);    /* a function value of another package */
/* Who asked, from the address on along the frames; *place is the first code that isn't of the runtime or of sync. */
struct code *aero_asked(const struct here *here, word at, struct code **place);
bool aero_is_within_wait(const struct here *here);   /* Cond.Wait */
struct label *aero_allocator(const struct here *here);

/* Whether a function's frame may lie there, above `low` on the goroutine's stack. */
static inline bool aero_is_frame(const struct here *here, const word *frame, word low) {
    return (word)frame >= low && (word)frame + 16 <= here->g[1] && !((word)frame & 7);
}

/* instructions.c */
bool aero_leads_to_end(word at, bool may_jump);    /* whether code does nothing but end its function */

/* defers.c */
bool aero_only_ends(struct code *from);
bool aero_only_ends_follow(const struct here *here, word stack);
void aero_leave_by_panic(struct goroutine *t, const struct here *here);

/* symbols.c */
void aero_symbols_start(void);
bool aero_has_symbols(void);
const char *aero_global(word at, word *start, word *end);    /* the global variable that has the byte, or NULL */
char *aero_unescape(char *text);               /* turns the name in Go's tables into that of the log, and returns its end */
const word *aero_word(const char *variable);   /* where the global variable of that name lies, or NULL */
bool aero_is_counter(word at);                 /* of go test -cover, and nothing that the program itself has */
int aero_each_function(bool (*each)(const char *label));     /* until it returns 0 */

/* objects.c */
bool aero_objects_start(void);                 /* whether there is room for them */
void aero_allocated(const struct here *here, word at, word bytes);
void aero_freed(word at, word bytes);
struct object *aero_object(word at);
uint16_t *aero_parts(word at);                 /* what access.c keeps of the eight bytes; NULL: nothing */
char *aero_put_variable(char *to, word at);
void aero_globals(word from, word bytes);

/* goroutines.c */
extern bool aero_has_blocks;                   /* one has begun in the log */
struct goroutine *aero_goroutine(void);
void aero_started(struct goroutine *parent, struct goroutine *t, word at);
void aero_ended(struct goroutine *t);
void aero_enter(const struct here *here, struct goroutine *t, word call_ends);
void aero_exit(const struct here *here, struct goroutine *t);
void aero_begin_blocks(struct goroutine *t);
void aero_leave(struct goroutine *t, size_t depth);
void aero_split(struct goroutine *t, bool begins_again);
void aero_end_early(struct goroutine *t, const struct here *here);
void aero_end_parked(struct goroutine *t);     /* the same of one that has sent, while another one receives, and waits still */
static inline void aero_waits(struct goroutine *t) {
    if (aero_settings.splits_waits) aero_split(t, true);
}
/* Frames deeper than the stack goes were left. */
void aero_drop_dead(struct goroutine *t, const struct here *here, word stack);
void aero_end_of_timer(struct goroutine *t);
/* Nobody else has what lies on the goroutine's own stack. */
static inline bool aero_is_own_stack(const struct here *here, word at) { return at - here->g[0] < here->g[1] - here->g[0]; }

/* access.c */
struct access {
    const char *operation;
    word at, bytes;          /* bytes: 0: a single access, of any size */
    word code;
    word within;             /* the function of the runtime that accesses, as closechan, or 0 */
};
/* What follows the name of a variable. */
struct suffix {
    const char *text;
    int64_t number;          /* behind the text, unless it is negative */
    const struct code *place;
};
void aero_access(const struct here *here, struct goroutine *t, const struct access *it);
bool aero_is_quiet(const struct goroutine *t);
/* Whether a write there has no event. */
static inline bool aero_only_reads(const struct code *place) { return (place->is & IS_LIBRARY) && (place->is & ONLY_READS); }
void aero_event(struct goroutine *t, const char *operation, word at, const struct code *place);
void aero_suffixed(struct goroutine *t, const char *operation, word at, const struct suffix *suffix);

/* atomics.c */
struct atomic {
    word at, bytes;
    const struct code *place, *asker;
    bool writes, is_load;
    word found;              /* by a load */
};
void aero_atomic(struct goroutine *t, const struct atomic *it);
void aero_atomic_access(struct goroutine *t, const struct atomic *it);    /* access.c */

/* sync.c */
enum order { ACQUIRE, RELEASE, MERGE, RELEASE_ACQUIRE };
struct sync *aero_sync(word at);
void aero_drop_syncs(struct object *of);
void aero_release(struct goroutine *t, struct sync *s, int merges, const struct code *place);
void aero_acquire(struct goroutine *t, struct sync *s, const struct code *place);
void aero_order(const struct here *here, struct goroutine *t, word at, enum order how);

/* channels.c */
struct ordered {
    word at;
    enum order how;
    const struct code *asker, *place;
};
void aero_channel(struct goroutine *t, const struct ordered *it);

#endif
