/* What the files of the logger share. log.c says what the whole is, and what becomes what. */
#ifndef AERODROME_LOG_H
#define AERODROME_LOG_H

#ifndef _GNU_SOURCE
#define _GNU_SOURCE
#endif
#include <errno.h>
#include <pthread.h>
#include <stdatomic.h>
#include <stdbool.h>
#include <stddef.h>
#include <stdint.h>
#include <sys/types.h>

/* The files of the logger are compiled with hidden names. What the compiler and the program call is exported, and weak: a
 * program that has a function of that name, as an allocator of its own, keeps it. */
#define EXPORT __attribute__((visibility("default"), weak)) ALIGNED
/* Code written in assembly may call C with a stack that isn't aligned, where it knows that the functions need none aligned; with
 * their hooks they would. */
#ifdef __x86_64__
#define ALIGNED __attribute__((force_align_arg_pointer))
#else
#define ALIGNED
#endif
_Static_assert(sizeof(uintptr_t) == 8, "addresses have 64 bits");
#define LIKELY(condition) __builtin_expect(!!(condition), 1)
#define UNLIKELY(condition) __builtin_expect(!!(condition), 0)
/* Where the caller of the function goes on, and where its stack ends at the call. HERE also ends the blocks of functions that were left
 * without a hook, as by __builtin_longjmp. */
#define CALL ((uintptr_t)__builtin_return_address(0))
#define FRAME ((uintptr_t)__builtin_dwarf_cfa())
#define HERE (aero_come_from(FRAME), CALL)

/* The next function of that name behind the program's own: that of the C library. All are looked up at the start, since a signal
 * handler or a child of vfork() may be the first to call one; a library that comes later has its own looked up by who calls them. */
struct next {
    const char *name, *version;
    _Atomic(void *) function;
};
void *aero_next(struct next *next);
void aero_find_next(void);
/* (`retain` is for linkers that leave sections out) */
#define LISTED __attribute__((section("aero_nexts"), used, retain))
#define REAL_VERSION(result, name, version, ...) \
    static struct next next_##name = {#name, version, NULL}; \
    static struct next *const listed_##name LISTED = &next_##name; \
    result (*real)(__VA_ARGS__); \
    *(void **)&real = atomic_load_explicit(&next_##name.function, memory_order_relaxed); \
    if (UNLIKELY(!real)) *(void **)&real = aero_next(&next_##name);
#define REAL(result, name, ...) REAL_VERSION(result, name, NULL, __VA_ARGS__)

/* A function that was entered. */
struct code;
struct frame {
    uintptr_t at;                    /* where its stack ended at its entry */
    const struct code *function;     /* NULL where memory was refused */
    uintptr_t call;                  /* where it was called */
    uintptr_t outside;               /* what `outside` of the thread was before */
    int block;                       /* whether its block is open in the log; blocks.c */
};

/* A lock that a thread holds, and how. */
enum holding { MUTEX = 1, READER, WRITER };
struct held {
    uintptr_t lock;
    enum holding how;
    uint32_t generation;             /* of the memory there */
};
enum { FEW_HELD = 16 };

/* What a function of Rust's std does with a lock, and that which the thread is in; rust.c. */
enum lock_call { NO_LOCK_CALL, TAKES, TRIES, TAKES_READER, TRIES_READER, TAKES_WRITER, TRIES_WRITER, GIVES_BACK, DOWNGRADES, WAITS };
struct locking {
    enum lock_call what;
    bool is_had;
    size_t depth;            /* of its frame */
    uintptr_t word;          /* 0: not known yet */
};

struct thread {
    int number;              /* from 1; 0: it has none yet */
    volatile int busy;       /* in the logger: a signal handler waits until it isn't */
    volatile int waits;      /* one waits; signals.c */
    volatile int aborts;     /* abort() has begun, and wasn't left by longjmp */
    int error;               /* errno as the program had it */
    bool jumped;             /* functions may have been left without their hook, as by exec in a child of vfork */
    bool cancels;            /* asynchronous cancelling was asked for; threads.c */
    bool has_end;            /* what it has left open is ended with it */
    int length;
    char prefix[16];         /* "T12|" */
    struct frame *frames;
    size_t depth, room;
    size_t leading;          /* so many frames, from the first one, are functions of the runtime */
    uintptr_t outside;       /* in a function of the runtime: where code that isn't of it has called that; else 0 */
    size_t handler;          /* in a signal handler: one more than the frames that were there before; else 0 */
    uintptr_t handler_at;    /* the handler's frames lie below */
    uintptr_t low, high;     /* where its own stack lies; 0: it isn't known */
    uintptr_t top;           /* that of the last frame, if it is of the own stack, and else 0; without frames the highest address */
    struct held few[FEW_HELD], *held;    /* the first ones, and those behind them */
    size_t holds, held_room;
    struct locking locking;
    struct stack *stack;     /* NULL: it isn't known */
};
extern __thread struct thread aero_me;

/* own_locks.c */
/* A lock of the logger's own. Who waits long for it sleeps. The two have a line of the cache each: threads that wait look at the
 * first one all the time, and who lets go looks at the second one. */
typedef struct {
    _Alignas(64) atomic_int owner;       /* the number of the thread that holds it, or 0 */
    _Alignas(64) atomic_int sleepers;    /* 1: some may sleep */
} lock_word;
enum { NUMBERLESS = 1 << 30 };       /* in the place of the number of a thread that has none yet */
void aero_wait_for(lock_word *lock, int number);
void aero_wake(lock_word *lock);
static inline int aero_own_number(void) { return LIKELY(aero_me.number) ? aero_me.number : NUMBERLESS; }
static inline void aero_take(lock_word *lock) {
    int number = aero_own_number(), found = 0;
    bool is_had = atomic_compare_exchange_strong_explicit(&lock->owner, &found, number, memory_order_acquire, memory_order_relaxed);
    if (UNLIKELY(!is_had)) aero_wait_for(lock, number);
}
static inline void aero_let_go(lock_word *lock) {
    atomic_store_explicit(&lock->owner, 0, memory_order_release);
    if (UNLIKELY(atomic_load_explicit(&lock->sleepers, memory_order_relaxed))) aero_wake(lock);
}
static inline bool aero_has(lock_word *lock) { return atomic_load(&lock->owner) == aero_own_number(); }

/* log.c */
enum { OFF, ON };
extern atomic_int aero_state;        /* OFF before the start, after the end, and in a child of fork() that isn't logged */
extern int aero_grain;               /* bytes of a variable; 0: as they are accessed */
extern lock_word aero_log_lock;
static inline void aero_lock(void) { aero_take(&aero_log_lock); }
static inline void aero_unlock(void) { aero_let_go(&aero_log_lock); }
static inline bool aero_writes(void) { return aero_has(&aero_log_lock); }   /* whether the calling thread holds the log's lock */
void aero_number(int number);        /* gives the calling thread its number */
int aero_next_number(void);          /* none of the logger's locks is held */
void aero_say(const char *what, const char *why);   /* one line on standard error */
void aero_count_anew(void);          /* the next thread is the first one */
void *aero_pages(size_t bytes);      /* zeroed memory, or NULL */
void aero_free_pages(void *at, size_t bytes);
/* Makes room for one item of `size` bytes more behind `count` of them, and says whether there is some. */
bool aero_has_room(void **items, size_t size, size_t count, size_t *room);
/* Writes the line OPERATION(KIND NAME)|PLACE of the calling thread; the log's lock is held. The name is that of the variable at
 * the address, or `text` where it isn't NULL; without a kind there are no parentheses. */
void aero_line(const char *operation, const char *kind, uintptr_t address, const char *text, uintptr_t code);
/* The same as an event of its own, which takes the log's lock. */
void aero_event(const char *operation, const char *kind, uintptr_t address, uintptr_t code);

/* output.c */
#define LOG_BUFFER (1 << 20)
extern char aero_buffer[LOG_BUFFER];
/* The bytes of the buffer that lines have. What a line has counts once it is whole, so that a signal finds whole lines. */
extern volatile size_t aero_used;
extern uint64_t aero_written, aero_limit;    /* written: without what the buffer has */
/* The last line of a log that ends early, and the reasons for that. */
#define AERO_MARK(reason) "aerodrome|begin(cut:" reason ")|0\n"
#define AERO_KILLED AERO_MARK("killed")
enum cut { CUT_LIMIT, CUT_WRITE, CUT_THREADS, CUT_MEMORY, CUT_FIBER, CUT_BLOCKS };
void aero_write_to(const char *target);
void aero_empty(void);               /* drops what the buffer has */
bool aero_has_lines(void);           /* whether a line was written, or is in the buffer */
/* With the log's lock held: */
void aero_flush(void);               /* writes out what is there */
void aero_stop(enum cut cut, const char *why);   /* ends the log early, and says why on standard error */
void aero_cut(enum cut cut);         /* the same without a word */
void aero_unmark(void);              /* writes out what is there, and leaves a whole log */
void aero_mark(void);                /* takes that back, as the program goes on */
void aero_write_only(void);          /* from now on no system call but `write` may be allowed */
void aero_interrupted(void);         /* a signal handler that came into the logger leaves it by longjmp */

/* signals.c */
void aero_handle(void);              /* runs the handler that waits */
void aero_call_on(char *stack, void (*what)(void *), void *with);    /* whose last byte lies before `stack` */
void aero_forget_handler(void);      /* drops it: it is the parent's */
bool aero_is_handled(int signal);    /* whether the program has a handler for it now, which is no fault's */
void aero_signals_start(void);

/* threads.c */
void aero_meet_thread(void);         /* the calling one, which has no number yet */

/* Whether the calling thread is to log what it does now. If so it calls aero_leave behind it. */
static inline bool aero_enter(void) {
    if (LIKELY(atomic_load_explicit(&aero_state, memory_order_relaxed) != ON) || UNLIKELY(aero_me.busy)) return false;
    aero_me.busy = 1;
    atomic_signal_fence(memory_order_seq_cst);
    aero_me.error = errno;
    if (UNLIKELY(!aero_me.number)) aero_meet_thread();
    return true;
}
/* Makes the thread as busy as it was before, and runs the handler that waits for that, if there is one. */
static inline void aero_be_busy_as(int before) {
    atomic_signal_fence(memory_order_seq_cst);
    aero_me.busy = before;
    atomic_signal_fence(memory_order_seq_cst);
    if (UNLIKELY(aero_me.waits) && !before) aero_handle();
}
static inline void aero_leave(void) {
    errno = aero_me.error;
    aero_be_busy_as(0);
}

/* Before an event of compiled code: where asynchronous cancelling was asked for, the thread may end here. */
void aero_be_cancelled(void);
static inline void aero_may_be_cancelled(void) {
    if (UNLIKELY(aero_me.cancels)) aero_be_cancelled();
}

/* target.c */
/* A file that the logger keeps open. The program may close its number, and open a file of its own by it. */
struct kept {
    int number;                      /* -1: none */
    dev_t device;
    ino_t node;
};
extern struct kept aero_log;
bool aero_is_kept(const struct kept *file);    /* whether the number still is that of the file */
enum { MOST_TARGET = 4096 };                    /* bytes, with the last one that is 0 */
bool aero_target_fits(const char *said);       /* whether it fits into these, whatever the process's number */
bool aero_target_is_of_process(const char *said);   /* whether each process has a target of its own, by %p */
const char *aero_target(const char *said);     /* with the process's number in the place of each %p */
bool aero_open(const char *target);            /* opens the log, and says whether it could */
bool aero_remove(void);                        /* removes the file, which has no line, and says whether it did */
bool aero_close(void);                         /* closes the log, and says whether it is whole; its lock is held */
void aero_end_command(bool waits);             /* lets go of the command that reads it, and waits for its end, if it is to */
bool aero_is_read_by_command(void);

/* settings.c */
struct settings {
    const char *target, *blocks;
    int grain, fresh, places;
    bool splits_waits, splits_threads;
    int64_t limit, stir;             /* -1: not said */
};
extern struct settings aero_settings;
bool aero_read_settings(const char *target);   /* from the environment; whether they can be used, else it says why not */

/* stir.c */
extern bool aero_stirs;
void aero_stir_start(void);
void aero_stir(void);
static inline void aero_may_stir(void) {
    if (UNLIKELY(aero_stirs)) aero_stir();
}

/* start.c */
void aero_start(void);

/* ends.c */
struct sigaction;
extern pid_t aero_owner;             /* the process whose log it is */
void aero_ends_start(void);
bool aero_is_deadly(int signal);     /* whether it ends a program that doesn't handle it */
struct sigaction aero_at_the_end(void);        /* what the logger does then */
void aero_lock_stacks(void);
void aero_unlock_stacks(void);
void aero_finish(void);
void aero_take_signal_stack(void);             /* for the calling thread */
void aero_drop_signal_stack(void);

/* processes.c */
bool aero_processes_start(void);               /* whether the C library calls the logger at fork */
bool aero_is_child(void);                      /* of fork, with a log of its own */
void aero_forked_apart(void);                  /* a child that the C library's fork hasn't made; its parent goes on with the log */
bool aero_before_exec(void);
void aero_behind_exec(bool entered);           /* it has failed */

/* names.c */
extern lock_word aero_names_lock;
/* The kind of a function, with LOCK_FUNCTION times what aero_lock_function says. OF_CONDITION is a function of condition_variable_any,
 * OF_PROGRAM one by which it uses what the program has given it, and RELOCKS that which takes the program's lock again. */
enum { IS_BLOCK = 1, IS_RUNTIME = 2, OF_CONDITION = 4, OF_PROGRAM = 8, RELOCKS = 16, LOCK_FUNCTION = 32 };
struct code {
    _Atomic uintptr_t at;            /* 0: other code is there by now */
    _Atomic(const char *) label;     /* of the function that it lies in; NULL: not looked up yet */
    atomic_int kind;
    unsigned length;                 /* of place */
    char place[];                    /* "|program+0x1234" */
};
#define MOST_NAME 255
void aero_names_start(void);
void aero_library_loaded(uintptr_t code);             /* that has code there: its names are read */
bool aero_is_loaded(const char *file, size_t length); /* whether that of a library is called so */
bool aero_is_of_unwinder(uintptr_t code);             /* or of what C++ has for locales */
/* The files of the C++ library, with their variables: libc++ has libc++abi beside it, and either has an unwinder. */
enum { FILES_OF_CPP = 5 };
struct file_of_cpp { _Atomic uintptr_t low, bytes; };
extern struct file_of_cpp aero_files_of_cpp[FILES_OF_CPP];
static inline bool aero_is_of_cpp_library(uintptr_t at) {
    for (const struct file_of_cpp *file = aero_files_of_cpp; file < aero_files_of_cpp + FILES_OF_CPP; file++) {
        uintptr_t low = atomic_load_explicit(&file->low, memory_order_relaxed);
        if (UNLIKELY(at - low < atomic_load_explicit(&file->bytes, memory_order_relaxed))) return true;
    }
    return false;
}
void aero_lock_names(void);
void aero_unlock_names(void);
const struct code *aero_code(uintptr_t at);           /* NULL where memory is refused */
const struct code *aero_function(uintptr_t at);       /* with its label and its kind */
/* Calls `each` with the label, the symbol and the object's file of each function that has hooks, of the file or of all by NULL,
 * until it returns 0; once its labels are made. */
void aero_each_function(const char *file, bool (*each)(const char *label, const char *symbol, const char *file));
char *aero_put_hex(char *to, uintptr_t number);
char *aero_put_text(char *to, const char *text);
char *aero_put_variable(char *to, uintptr_t address);
/* Whether the byte is of a variable that the C++ library has for itself, and the program contains. */
bool aero_is_of_contained_cpp(uintptr_t address);
/* Where the global variable that has the byte begins and ends; 0 and UINTPTR_MAX where there is none. */
void aero_symbol_bounds(uintptr_t address, uintptr_t *from, uintptr_t *to);

/* labels.c */
/* Whether the C++ library calls a variable of its own by the symbol. */
bool aero_is_symbol_of_cpp(const char *symbol);
/* Puts the name of the symbol as the log has it, of at most `most` bytes, with a byte 0 behind it. */
void aero_put_label(char *to, const char *symbol, bool is_function, size_t most);
char aero_fitting(char byte);        /* the byte, or ! for one that the format doesn't have in a name */

/* symbols.c */
struct symbol {
    uintptr_t at, size;
    const char *name;
    bool several;            /* others have the name too */
    bool again;              /* others were there before, and are gone */
    bool is_of_cpp;          /* it is the C++ library's own */
};
struct table {
    struct symbol *symbols;  /* in the order of their addresses, no two at one */
    size_t count;
};
/* A file that is mapped. */
struct image {
    const char *bytes;       /* NULL: none */
    size_t size;
};
struct image aero_image(const char *path);
void aero_drop_image(struct image image);
struct table aero_symbols(struct image image, unsigned kind, uintptr_t bias);
struct image aero_names_of(struct image image, const char *path);    /* that which has its names: a debug file's, or itself */
bool aero_wants_hooks(struct image image);     /* whether code in the library calls the logger */
bool aero_wants_main(struct image image);      /* whether the program has main from a library */
const struct symbol *aero_symbol_at(const struct table *table, uintptr_t address);
void aero_sort_symbols(struct table *table);

/* memory.c */
void aero_memory_start(void);
/* What parts.c keeps of the eight bytes at the address; NULL where there's no memory. The log's lock is held. */
uint16_t *aero_parts_at(uintptr_t address);
enum { AERO_PIECE = 4 };
void aero_renew(uintptr_t from, uintptr_t to);        /* what lies there is new variables, in whole pieces of so many bytes */
uint32_t aero_generation(uintptr_t address);          /* how often it was renewed */
uintptr_t aero_step(uintptr_t address);               /* and, with it, how many bytes from there on: AERO_PIECE or more */
void aero_mark_stack(uintptr_t low, uintptr_t high);  /* accesses to its pages are noted */

/* stacks.c */
struct stack {                       /* of a thread; of one that has ended both ends are 0 */
    uintptr_t low, high;
    _Atomic uintptr_t noted, noted_end;      /* from there on and up to there others have accessed it; 0: nowhere */
    struct stack *next;
};
void aero_stacks_start(void);                         /* with that of main */
void aero_note_stack(uintptr_t low, uintptr_t high);  /* the calling thread's, which has new variables */
void aero_forget_stack(void);                         /* as the thread ends */
bool aero_note_access(uintptr_t address);             /* to a page of a stack; whether it still is one. The log's lock is held */
void aero_renew_below(uintptr_t end);                 /* the functions whose frames lie below the address are left */
static inline bool aero_is_noted(const struct stack *stack) {
    return stack && UNLIKELY(atomic_load_explicit(&stack->noted, memory_order_relaxed) != 0);
}

/* parts.c */
/* A copy may be of several variables at a time. */
enum access { PLAIN, COPY };
void aero_forget_half(uint16_t *parts, unsigned from);    /* of eight bytes those from 0 or 4 on are new */
/* The lines of an access; the log's lock is held. */
void aero_span(const char *operation, enum access how, uintptr_t address, size_t bytes, uintptr_t code);

/* choice.c */
bool aero_read_blocks(const char *blocks);            /* whether the list can be read */
bool aero_knows_blocks(void);                         /* whether each name is that of a function; else it says which isn't */
void aero_look_for_blocks(const char *file);          /* the same of a library that was loaded; where one isn't, the log ends */
void aero_lacks_main(const char *file);               /* the program has no function of that name */
void aero_lacks_name(const char *file);               /* a function that was entered has none */
void aero_lacks_file(const char *file);               /* a library with hooks can't be read, so no function of it has a name */
bool aero_tell_never_loaded(void);                    /* which libraries names are of that weren't there, in a line, if there are some */
bool aero_wants_blocks(void);                         /* whether AERODROME_BLOCKS names some */
int aero_kind(const char *label, const char *symbol, const char *file);    /* symbol: NULL where it has no name */
bool aero_starts_are_blocks(void);                    /* whether the functions are that threads start with */

/* blocks.c */
extern bool aero_has_entered;                         /* a function that has hooks */
extern bool aero_has_begun;                           /* a block */
void aero_left(uintptr_t frame);                      /* ends the blocks of functions below the frame */
void aero_may_have_left(uintptr_t frame);             /* the same, where the frame shows that these have ended without a hook */
/* Of what the program does in a function whose frame ends there: others may have been left by __builtin_longjmp. */
static inline void aero_come_from(uintptr_t frame) {
    if (UNLIKELY(frame > aero_me.top)) aero_may_have_left(frame);
}
void aero_end_blocks(void);                           /* ends all of the calling thread's; the log's lock is held */
void aero_forget_blocks(void);                        /* as the log that they began in isn't written here */
void aero_split_blocks(bool begins);                  /* ends them where they are to be split, and then begins them again */
bool aero_looks_for_condition(void);                  /* in a function of the runtime: whether condition_variable_any does this for itself */
static inline bool aero_is_of_condition(void) { return UNLIKELY(aero_me.outside) && aero_looks_for_condition(); }
/* Ends them where a thread starts or is joined, if they are to; the log's lock is held. */
void aero_split_at_thread(void);

/* threads.c */
bool aero_threads_start(void);                        /* whether the C library calls the logger where a thread ends */
void aero_lock_threads(void);
void aero_unlock_threads(void);
void aero_forget_threads(void);                       /* all but the calling one, which has the first number */
void aero_end_thread(void);                           /* ends its blocks and releases its locks; the log's lock is held */
bool aero_end_with_thread(void);                      /* has that done, and its memory freed, where it ends; 0: it can't */

/* locks.c */
void aero_acquired(uintptr_t lock, enum holding how, uintptr_t code);
enum holding aero_releasing(uintptr_t lock, uintptr_t code);
/* With the log's lock held: */
void aero_hold(uintptr_t lock, enum holding how, uintptr_t code);
enum holding aero_release(uintptr_t lock, uintptr_t code);
uintptr_t aero_last_mutex(void);                      /* that the thread has taken and still holds, or 0 */
void aero_forget_locks(void);                         /* as the log that they were taken in isn't written here */
void aero_release_all(void);

/* rust.c */
bool aero_is_rust(const char *symbol);
char *aero_rust_name(const char *symbol);
bool aero_is_of_rust_library(const char *label);
bool aero_is_rust_main(const char *label);
void aero_tell_unlogged(const char *label);           /* once, if a function of the program isn't logged */
enum lock_call aero_lock_function(const char *label);
void aero_enter_lock_function(enum lock_call what, uintptr_t code);
void aero_leave_lock_function(uintptr_t code);
/* Of an atomic operation in such a function, with the log's lock held: whether it gives the lock back, or takes or wants it. */
bool aero_gives_back(uintptr_t word, uintptr_t code);
bool aero_takes(uintptr_t word, bool changes, uintptr_t code);

#endif
