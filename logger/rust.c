/* Rust: readable names of its functions, and the locks of its std.
 *
 * A Mutex of std is a word that compare-exchanges change; where it isn't had at once, std's own code, which has no hooks, waits for
 * it. Logged as what it does, a try that fails would be a read between the holder's two writes. So the functions of std that
 * lock are known by their names, and what they do to the word is logged as a lock:
 *
 *   Mutex::lock, try_lock where it succeeds; the guard's drop    acq(M); rel(M)
 *   Condvar::wait, wait_timeout and what calls these             rel(M), acq(M) of the mutex that was taken last
 *   RwLock::read, try_read, and the guard's drop                 r(rw.L)
 *   RwLock::write, try_write, and the guard's drop               w(rw.L)
 *   RwLockWriteGuard::downgrade                                  w(rw.L), r(rw.L)
 *
 * aerodrome-rustc asks for the older form of symbols (_ZN..17hHASHE). One of the newer form (_R..) stays as it is, and none of these
 * functions is known by it. */
#include "log.h"
#include "words.h"

#include <stdlib.h>
#include <string.h>

/* ---- names */

/* How long the part of a path is that stands there, with its digits; 0: none. */
static size_t part_at(const char *symbol, const char **from) {
    char *end;
    if (*symbol < '1' || *symbol > '9') return 0;
    size_t length = strtoul(symbol, &end, 10);
    *from = end;
    return strlen(end) < length ? 0 : (size_t)(end - symbol) + length;
}

/* _ZN4bank4Bank3pay17h0123456789abcdefE: the last part is a hash. */
static bool is_hash(const char *part, const char *end) {
    return end - part == 17 && *part == 'h' && strspn(part + 1, "0123456789abcdef") >= 16;
}

bool aero_is_rust(const char *symbol) {
    const char *from = NULL;
    size_t length;
    if (strncmp(symbol, "_ZN", 3)) return false;
    symbol += 3;
    while ((length = part_at(symbol, &from))) symbol += length;
    return from && *symbol == 'E' && is_hash(from, symbol);
}

/* Puts the character that stands for the escape ($LT$, $u7b$), and returns what is behind it; NULL: it is none. */
static const char *put_escaped(char **to, const char *escape, const char *end) {
    static const char escapes[][2][4] = {{"LT", "<"}, {"GT", ">"}, {"RF", "&"}, {"BP", "*"},
                                         {"C", ","}, {"SP", "@"}, {"LP", "("}, {"RP", ")"}};
    const char *name = escape + 1, *last = memchr(name, '$', (size_t)(end - name));
    if (!last) return NULL;
    if (*name == 'u') {
        *(*to)++ = (char)strtoul(name + 1, NULL, 16);
        return last + 1;
    }
    for (size_t one = 0; one < sizeof escapes / sizeof *escapes; one++)
        if (strlen(escapes[one][0]) == (size_t)(last - name) && !memcmp(escapes[one][0], name, (size_t)(last - name))) {
            *(*to)++ = *escapes[one][1];
            return last + 1;
        }
    return NULL;
}

static char *put_part(char *to, const char *part, const char *end) {
    part += *part == '_' && part[1] == '$';
    while (part < end) {
        const char *behind = *part == '$' ? put_escaped(&to, part, end) : NULL;
        if (behind) part = behind;
        else if (*part == '.' && part + 1 < end && part[1] == '.') {
            to = aero_put_text(to, "::");
            part += 2;
        } else *to++ = *part++;
    }
    return to;
}

/* The path as people write it, in memory that is the caller's; NULL where there is none. */
char *aero_rust_name(const char *symbol) {
    const char *from, *at = symbol + 3;
    char *name = malloc(2 * strlen(symbol) + 1), *to = name;
    for (size_t length; name && (length = part_at(at, &from)); at += length) {
        if (is_hash(from, at + length)) break;
        if (to != name) to = aero_put_text(to, "::");
        to = put_part(to, from, at + length);
    }
    if (name) *to = 0;
    return name;
}

/* Whether the path is of std, core or alloc, or of none, as a type that has any parameter (T) or is built in (&[u8]). */
static bool is_of_library(const char *path) {
    static const char *const words[] = {"mut ", "dyn ", "const "};
    path += strspn(path, "<&*([");
    for (size_t one = 0; one < sizeof words / sizeof *words; one++)
        if (begins(path, words[one])) path += strlen(words[one]);
    size_t crate = strspn(path, "abcdefghijklmnopqrstuvwxyzABCDEFGHIJKLMNOPQRSTUVWXYZ0123456789_");
    return begins(path, "std::") || begins(path, "core::") || begins(path, "alloc::") || !crate || !begins(path + crate, "::");
}

/* The trait of <TYPE as TRAIT>::function, or NULL. */
static const char *trait_of(const char *label) {
    int depth = 0;
    for (; *label; label++) {
        depth += (*label == '<') - (*label == '>' && label[-1] != '-');
        if (depth == 1 && begins(label, " as ")) return label + 4;
    }
    return NULL;
}

/* What implements a trait is the program's if the type or the trait is. */
bool aero_is_of_rust_library(const char *label) {
    const char *trait = *label == '<' ? trait_of(label) : NULL;
    return is_of_library(label) && (!trait || is_of_library(trait));
}

bool aero_is_rust_main(const char *label) {
    const char *behind = strstr(label, "::");
    return behind && !strcmp(behind, "::main");
}

/* Returns whether LLVM has no hooks for the function. */
static bool is_unlogged(const char *label) {
    const char *last = begins(label, "core::sync::atomic::Atomic") ? strrchr(label, ':') : NULL;
    return last && (!strcmp(last + 1, "fetch_max") || !strcmp(last + 1, "fetch_min"));
}
void aero_tell_unlogged(const char *label) {
    static atomic_int is_told;
    if (is_unlogged(label) && !atomic_exchange(&is_told, 1)) aero_say(label, "the compiler has no hooks for it, so it isn't in the log");
}

/* ---- functions that lock */

/* Whether the label is that of the type's function, behind std::sync, and the module that some versions have there. */
static bool is_of(const char *label, const char *type, const char *function) {
    if (!begins(label, "std::sync::")) return false;
    label += strlen("std::sync::");
    if (begins(label, "poison::")) label += strlen("poison::");
    return begins(label, type) && !strcmp(label + strlen(type), function);
}

enum lock_call aero_lock_function(const char *label) {
    static const struct {
        const char *type, *function;
        enum lock_call what;
    } all[] = {
        {"mutex::Mutex<T>", "::lock", TAKES}, {"mutex::Mutex<T>", "::try_lock", TRIES},
        {"rwlock::RwLock<T>", "::read", TAKES_READER}, {"rwlock::RwLock<T>", "::try_read", TRIES_READER},
        {"rwlock::RwLock<T>", "::write", TAKES_WRITER}, {"rwlock::RwLock<T>", "::try_write", TRIES_WRITER},
        {"mutex::MutexGuard<T>", " as core::ops::drop::Drop>::drop", GIVES_BACK},
        {"rwlock::RwLockReadGuard<T>", " as core::ops::drop::Drop>::drop", GIVES_BACK},
        {"rwlock::RwLockWriteGuard<T>", " as core::ops::drop::Drop>::drop", GIVES_BACK},
        {"rwlock::RwLockWriteGuard<T>", "::downgrade", DOWNGRADES},
        {"condvar::Condvar", "::wait", WAITS}, {"condvar::Condvar", "::wait_timeout", WAITS},
    };
    label += *label == '<';
    for (size_t one = 0; one < sizeof all / sizeof *all; one++)
        if (is_of(label, all[one].type, all[one].function)) return all[one].what;
    return NO_LOCK_CALL;
}

static enum holding holding_of(enum lock_call what) {
    if (what == TAKES_READER || what == TRIES_READER) return READER;
    return what == TAKES_WRITER || what == TRIES_WRITER ? WRITER : MUTEX;
}

/* The frame of the function is the last one. */
void aero_enter_lock_function(enum lock_call what, uintptr_t code) {
    struct thread *me = &aero_me;
    if (me->locking.what != NO_LOCK_CALL) return;
    me->locking = (struct locking){what, 0, me->depth, 0};
    if (what != WAITS) return;
    aero_lock();
    me->locking.word = aero_last_mutex();
    if (me->locking.word) aero_release(me->locking.word, code);
    aero_unlock();
    aero_split_blocks(false);
}

/* What wasn't had at once is had now, but for what was only tried. */
void aero_leave_lock_function(uintptr_t code) {
    struct locking it = aero_me.locking;
    aero_me.locking.what = NO_LOCK_CALL;
    if (it.what == WAITS) aero_split_blocks(true);
    bool is_tried = it.what == TRIES || it.what == TRIES_READER || it.what == TRIES_WRITER;
    if (!it.word || it.is_had || is_tried || it.what == GIVES_BACK) return;
    aero_lock();
    aero_hold(it.word, holding_of(it.what), code);
    aero_unlock();
}

/* A writer that becomes a reader has the lock all the time. */
bool aero_gives_back(uintptr_t word, uintptr_t code) {
    enum lock_call what = aero_me.locking.what;
    if ((what != GIVES_BACK && what != DOWNGRADES) || !aero_release(word, code)) return false;
    if (what == DOWNGRADES) aero_hold(word, READER, code);
    return true;
}

/* The first word that the function changes, or wants to, is the lock. */
bool aero_takes(uintptr_t word, bool changes, uintptr_t code) {
    struct locking *it = &aero_me.locking;
    if (it->what == GIVES_BACK || it->what == DOWNGRADES || it->what == WAITS || it->is_had) return false;
    if (!it->word) it->word = word;
    if (it->word != word) return false;
    if (changes) {
        it->is_had = true;
        aero_hold(word, holding_of(it->what), code);
    }
    return true;
}
