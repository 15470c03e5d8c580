/* Which functions are atomic blocks, by AERODROME_BLOCKS:
 *
 *   f,g        these, with a comma or a newline between two. A name is that in the log (Bank::pay) or that of the symbol
 *              (_ZN4Bank3payEl); in one, * stands for any text: Bank::*,-Bank::audit. A library's own are libbank.so:f,
 *              also where it is loaded later, and plug*.so:f of each library that is called so. A function without a name is
 *              called as in the log: program+0x1234
 *   -f,g       all that are blocks without the variable, but these
 *   all        each function; all,-f but for f
 *   none       none
 *   @FILE      what the file says, with one name a line, and # before lines that say nothing; -@FILE: all but these
 *
 * Without it all are but main, those that threads start with (blocks.c), the bodies of OpenMP's teams, and the functions of std::
 * and of the C++ runtime, for Rust those of std, core and alloc. A function without a name may be any of these, so it is none. */
#include "log.h"
#include "words.h"

#include <stdio.h>
#include <string.h>

static enum { USUAL, ALL, ONLY_LISTED } base;
static struct name {
    const char *file;                /* of that library's functions, NULL: of any */
    size_t file_length;
    const char *text;
    size_t length;
    bool leaves_out, is_found;
} *names;
static size_t name_count;
static bool is_unreadable;           /* the program's names are needed, and it has none */

bool aero_starts_are_blocks(void) { return base != USUAL; }

/* ---- names that match */

static bool is_in_file(const struct name *name, const char *file) {
    return !name->file || matches(name->file, name->file_length, file);
}
static bool is_called(const struct name *name, const char *label, const char *symbol, const char *file) {
    if (!is_in_file(name, file)) return false;
    return matches(name->text, name->length, label) || (symbol && matches(name->text, name->length, symbol));
}

/* ---- functions of the C++ runtime */

/* By the symbol: _ZNKSt6vectorIiE4sizeEv is of std, and so is what lies within its functions (_ZZNSt..). */
static bool is_of_std(const char *symbol) {
    if (!begins(symbol, "_Z")) return false;
    symbol += 2;
    symbol += strspn(symbol, "Z");
    symbol += *symbol == 'N';
    symbol += strspn(symbol, "rVK");
    symbol += strspn(symbol, "RO");
    return (*symbol == 'S' && symbol[1] && strchr("tabsiod", symbol[1])) || begins(symbol, "9__gnu_cxx")
        || begins(symbol, "10__cxxabiv1") || begins(symbol, "11__gnu_debug") || begins(symbol, "14__gnu_parallel");
}
static bool is_of_runtime(const char *label, const char *symbol) {
    static const char *const heads[] = {"_GLOBAL__", "__cxx_global_", "__static_initialization", "__tls_init", "__cxa_",
                                        "__gthread_", "__clang_call_terminate", "__rust", "TLS init function for ",
                                        "TLS wrapper function for ", "_ZGI", "_sub_I_", "_sub_D_", "__gcov", "__llvm_gcov",
                                        "__llvm_profile"};
    for (size_t one = 0; one < sizeof heads / sizeof *heads; one++)
        if (begins(label, heads[one]) || begins(symbol, heads[one])) return true;
    return aero_is_rust(symbol) ? aero_is_of_rust_library(label) : is_of_std(symbol);
}
/* condition_variable_any is compiled with the program, as no other lock of std is. It has a mutex of its own, in memory that is counted, and
 * _Unlock for the time in which the program's lock isn't had. A stop_token is the program's. */
static int of_condition(const char *symbol) {
    static const char head[] = "St3_V222condition_variable_any";
    if (!begins(symbol, "_Z")) return 0;
    symbol += 2 + strspn(symbol + 2, "Z");
    symbol += *symbol == 'N';
    symbol += strspn(symbol, "rVK");
    if (begins(symbol, "St10stop_token") || begins(symbol, "St13stop_callback") || begins(symbol, "St11stop_source")) return OF_PROGRAM;
    if (!begins(symbol, head)) return 0;
    if (!begins(symbol + strlen(head), "7_Unlock")) return OF_CONDITION;
    return strstr(symbol, "ED1Ev") || strstr(symbol, "ED2Ev") ? OF_PROGRAM | RELOCKS : OF_PROGRAM;
}
static bool is_main(const char *label, const char *symbol) {
    return !strcmp(symbol, "main") || (aero_is_rust(symbol) && aero_is_rust_main(label));
}

/* The part of a function that the threads of a team run, or that copies for a task. */
static bool is_of_team(const char *symbol) {
    return strstr(symbol, "._omp_fn.") || strstr(symbol, "._omp_cpyfn.") || strstr(symbol, ".omp_outlined");
}

int aero_kind(const char *label, const char *symbol, const char *file) {
    bool runtime = symbol && is_of_runtime(label, symbol);
    enum lock_call locks = symbol && aero_is_rust(symbol) ? aero_lock_function(label) : NO_LOCK_CALL;
    bool block = base == ALL || (base == USUAL && symbol && !runtime && !is_main(label, symbol) && !is_of_team(symbol));
    for (size_t one = 0; one < name_count; one++)
        if (is_called(&names[one], label, symbol, file)) {
            block = !names[one].leaves_out;
            if (!block) break;
        }
    return (block ? IS_BLOCK : 0) | (runtime ? IS_RUNTIME : 0) | (symbol ? of_condition(symbol) : 0) | (int)locks * LOCK_FUNCTION;
}

/* ---- names of a list */

/* libbank.so:f: where the name of a library stands before a single colon, what is behind it begins. */
static size_t behind_file(const char *text, size_t length) {
    const char *colon = memchr(text, ':', length), *dot = memmem(text, length, ".so", 3);
    if (!colon || !dot || dot > colon || colon[1] == ':') return 0;
    return (size_t)(colon - text) + 1;
}

static struct name name_in(const char *text, size_t length, bool leaves_out) {
    size_t file = behind_file(text, length);
    return (struct name){file ? text : NULL, file ? file - 1 : 0, text + file, length - file, leaves_out, 0};
}

/* Puts the names of the list down, and says whether there was memory for them. */
static bool take_names(const char *list, bool all_leave_out) {
    names = aero_pages((strlen(list) / 2 + 1) * sizeof *names);
    while (names && *list) {
        bool minus = *list == '-';
        size_t length = name_length(list += minus, "<(", ">)");
        if (length) names[name_count++] = name_in(list, length, minus || all_leave_out);
        list += length + (list[length] != 0);
    }
    return names != NULL;
}

static bool find_names(const char *label, const char *symbol, const char *file) {
    size_t found = 0;
    for (size_t one = 0; one < name_count; one++) {
        if (!names[one].is_found) names[one].is_found = is_called(&names[one], label, symbol, file);
        found += names[one].is_found != 0;
    }
    return found < name_count;
}

static bool is_address(const struct name *name) { return memmem(name->text, name->length, "+0x", 3) != NULL; }

static void tell_unknown(const struct name *name, const char *so) {
    char what[256], why[256];
    snprintf(what, sizeof what, "AERODROME_BLOCKS=%.180s", aero_settings.blocks);
    snprintf(why, sizeof why, "no function is called %.*s: %s", name->length < 150 ? (int)name->length : 150, name->text, so);
    aero_say(what, why);
}

/* Whether it is of several libraries, of which one may have it and another not. */
static bool is_of_several(const struct name *name) { return name->file && memchr(name->file, '*', name->file_length); }

/* The first name that no function has, of those of the file's functions, or, by NULL, of all that may be there by now. What a
 * pattern would leave out needn't be there. */
static const struct name *unknown_name(const char *file) {
    for (size_t one = 0; one < name_count; one++) {
        const struct name *name = &names[one];
        bool is_wanted = file ? name->file && is_in_file(name, file) : !name->file || aero_is_loaded(name->file, name->file_length);
        if (!is_wanted || name->is_found || is_address(name) || is_of_several(name)) continue;
        if (!name->leaves_out || !memchr(name->text, '*', name->length)) return name;
    }
    return NULL;
}

bool aero_knows_blocks(void) {
    if (is_unreadable) return false;
    if (name_count) aero_each_function(NULL, find_names);
    const struct name *unknown = unknown_name(NULL);
    if (unknown) tell_unknown(unknown, "nothing is logged");
    return !unknown;
}

void aero_look_for_blocks(const char *file) {
    if (!name_count) return;
    aero_each_function(file, find_names);
    const struct name *unknown = unknown_name(file);
    if (!unknown) return;
    tell_unknown(unknown, "the rest isn't logged");
    aero_lock();
    aero_cut(CUT_BLOCKS);
    aero_unlock();
}

bool aero_wants_blocks(void) { return base == ALL || (base == ONLY_LISTED && name_count); }

bool aero_tell_never_loaded(void) {
    char what[256];
    for (size_t one = 0; one < name_count; one++) {
        const struct name *name = &names[one];
        if (!name->file || name->leaves_out || name->is_found) continue;
        snprintf(what, sizeof what, "AERODROME_BLOCKS=%.180s", aero_settings.blocks);
        aero_say(what, is_of_several(name) ? "a name in it is of no library that was loaded, or of none of its functions"
                                           : "a library of a name in it was never loaded");
        return true;
    }
    return false;
}

/* Whoever says which functions are blocks doesn't need the names of others. */
void aero_lacks_main(const char *file) {
    if (base != USUAL) return;
    is_unreadable = true;
    aero_say(file, "it is stripped, so that main and std:: can't be told from its other functions: nothing is logged, "
                   "unless AERODROME_BLOCKS is all, none or a list of blocks");
}
void aero_lacks_name(const char *file) {
    if (base == USUAL) aero_say(file, "it is stripped: its functions that have no name are no blocks");
}
void aero_lacks_file(const char *file) {
    if (base == USUAL) aero_say(file, "the file can't be read, so its functions have no names: they are no blocks");
}

/* ---- the variable */

/* The lines of the file, but for those that begin with #, behind `head`; NULL: it can't be read. */
static char *lines_of(const char *path, const char *head) {
    struct image file = aero_image(path);
    char *text = file.bytes ? aero_pages(file.size + 2) : NULL, *to = text ? aero_put_text(text, head) : NULL;
    if (text) take_lines(to, file.bytes, file.size);
    aero_drop_image(file);
    return text;
}

bool aero_read_blocks(const char *blocks) {
    if (!blocks) return true;
    bool minus = *blocks == '-', is_file = blocks[minus] == '@';
    const char *said = is_file ? lines_of(blocks + minus + 1, minus ? "-" : "") : blocks;
    if (!said || !said[strspn(said, "-\n")]) {
        char what[256];
        snprintf(what, sizeof what, "AERODROME_BLOCKS=%.180s", blocks);
        aero_say(what, said ? "it has no name: nothing is logged" : "the file is empty or can't be read: nothing is logged");
        return false;
    }
    bool all = is_first(said, "all");
    base = all ? ALL : *said == '-' ? USUAL : ONLY_LISTED;
    if (is_first(said, "none") && !said[4 + (said[4] == '\n')]) return true;
    const char *list = all ? said + 3 + (said[3] != 0) : said;
    if (take_names(list, *said == '-')) return true;
    aero_say("AERODROME_BLOCKS", "out of memory: nothing is logged");
    return false;
}
