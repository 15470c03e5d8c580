/* Which functions are atomic blocks, by AERODROME_BLOCKS:
 *
 *   f,g        these, with a comma or a newline between two. A name is that in the log: main.(*Bank).withdraw. In one, * stands
 *              for any text: main.(*Bank).*,-main.(*Bank).audit
 *   -f,g       all that are blocks without the variable, but these
 *   all        each function; all,-f but for f
 *   none       none
 *   @FILE      what the file says, with one name a line, and # before lines that say nothing; -@FILE: all but these
 *
 * Without it all are but main.main, inits, those that goroutines start with and those that only call Done, Lock or Unlock
 * (goroutines.c), those of the standard library, and those in files named _test.go. What the compiler makes beside a function never
 * is one. */
#include "log.h"
#include "../logger/words.h"

#include <fcntl.h>
#include <stdio.h>
#include <stdlib.h>
#include <sys/stat.h>
#include <unistd.h>

static enum { USUAL, ALL, ONLY_LISTED } base;
static struct name {
    const char *text;
    size_t length;
    bool leaves_out, is_found;
} *names;
static size_t name_count;

bool aero_starts_are_blocks(void) { return base != USUAL; }
bool aero_wants_blocks(void) { return base != ONLY_LISTED || name_count; }

/* ---- names that match */

static bool is_usual(const char *label, const char *file) {
    if (!strcmp(label, "main.main") || aero_is_init(label)) return false;
    return !aero_ends_with(file, "_test.go") && !strstr(file, "_testmain.go") && !aero_is_of_library(label);
}

/* Whether the compiler made the function: main.each-range1, the body of a loop over a function (Go 1.23), or type..eq.main.Bank and
 * type..hash.main.Bank (type:.eq. since Go 1.20), which compare and hash values. It is a part of a function that has the label of the
 * source, as is a wrapper (code.c). */
static bool is_made_by_compiler(const char *label) {
    if (begins(label, "type..") || begins(label, "type:.")) return true;
    const char *made = strrchr(label, '-');
    return made && begins(made, "-range") && made[6] && !made[6 + strspn(made + 6, "0123456789")];
}

/* Returns whether the name is the function's, `plain` as the log has it or `label` as Go's tables have it (aero_unescape). */
static bool is_name_of(const struct name *name, const char *plain, const char *label) {
    return matches(name->text, name->length, plain) || matches(name->text, name->length, label);
}

/* Returns a copy of the name as the log has it, but not shortened. */
static char *plain_name(const char *label) {
    char *plain = strcpy(aero_new(strlen(label) + 1), label);
    aero_unescape(plain);
    return plain;
}

/* Returns whether the list makes the function a block, or `block` if the list doesn't have it. */
static bool is_chosen(const char *label, bool block) {
    char *plain = plain_name(label);
    bool is_left_out = false;
    for (size_t one = 0; one < name_count && !is_left_out; one++)
        if (is_name_of(&names[one], plain, label)) {
            is_left_out = names[one].leaves_out;
            block = !is_left_out;
        }
    free(plain);
    return block;
}

bool aero_is_block(const char *label, const char *file) {
    if (begins(label, "runtime.") || begins(label, "internal/race.") || is_made_by_compiler(label)) return false;
    return is_chosen(label, base == ALL || (base == USUAL && is_usual(label, file)));
}

/* ---- names of a list */

static void take_names(const char *list, bool all_leave_out) {
    names = aero_new((strlen(list) / 2 + 1) * sizeof *names);
    while (*list) {
        bool minus = *list == '-';
        size_t length = name_length(list += minus, "[(", "])");
        if (length) names[name_count++] = (struct name){list, length, minus || all_leave_out, 0};
        list += length + (list[length] != 0);
    }
}

static bool has_plugins;
static bool find_names(const char *label) {
    size_t found = 0;
    char *plain = plain_name(label);
    has_plugins |= !strcmp(label, "plugin.Open");
    for (size_t one = 0; one < name_count; one++) {
        if (!names[one].is_found) names[one].is_found = is_name_of(&names[one], plain, label);
        found += names[one].is_found != 0;
    }
    free(plain);
    return found < name_count;
}

/* Whether it has a star for any text. One behind a parenthesis, as in (*Bank), is Go's own. */
static bool is_pattern(const struct name *name) {
    for (size_t place = 0; place < name->length; place++)
        if (name->text[place] == '*' && (!place || name->text[place - 1] != '(')) return true;
    return false;
}

/* The first name that no function has. What a pattern would leave out needn't be there. */
static const struct name *unknown_name(void) {
    for (size_t one = 0; one < name_count; one++) {
        const struct name *name = &names[one];
        if (!name->is_found && (!name->leaves_out || !is_pattern(name))) return name;
    }
    return NULL;
}

/* Go leaves functions that nothing calls out of a program. Plugins may have others. */
bool aero_knows_blocks(void) {
    char what[256], why[256];
    if (!name_count || !aero_has_symbols()) return true;
    aero_each_function(find_names);
    const struct name *unknown = unknown_name();
    if (!unknown || has_plugins) return true;
    snprintf(what, sizeof what, "AERODROME_BLOCKS=%.180s", aero_settings.blocks);
    snprintf(why, sizeof why, "no function is called %.*s: nothing is logged", unknown->length < 150 ? (int)unknown->length : 150,
             unknown->text);
    aero_say(what, why);
    return false;
}

/* ---- the variable */

/* The bytes of the file, with a byte 0 behind them; NULL: it can't be read. */
static char *bytes_of(const char *path) {
    struct stat is;
    int file = open(path, O_RDONLY | O_CLOEXEC);
    if (file < 0 || fstat(file, &is) || !S_ISREG(is.st_mode) || !is.st_size) return NULL;
    char *text = aero_new((size_t)is.st_size + 1);
    ssize_t came = read(file, text, (size_t)is.st_size);
    close(file);
    if (came == is.st_size) return text;
    free(text);
    return NULL;
}

/* The lines of the file, but for those that begin with #, behind `head`; NULL: it can't be read. */
static char *lines_of(const char *path, const char *head) {
    char *bytes = bytes_of(path), *text = bytes ? aero_new(strlen(bytes) + 2) : NULL;
    if (!bytes) return NULL;
    take_lines(aero_put(text, head), bytes, strlen(bytes));
    free(bytes);
    return text;
}

bool aero_read_blocks(const char *blocks) {
    if (!blocks) return true;
    bool minus = *blocks == '-', is_file = blocks[minus] == '@';
    const char *said = is_file ? lines_of(blocks + minus + 1, minus ? "-" : "") : strdup(blocks);
    if (!said || !said[strspn(said, "-\n")]) {
        char what[256];
        snprintf(what, sizeof what, "AERODROME_BLOCKS=%.180s", blocks);
        aero_say(what, said ? "it has no name: nothing is logged" : "the file is empty or can't be read: nothing is logged");
        return false;
    }
    bool all = is_first(said, "all");
    base = all ? ALL : *said == '-' ? USUAL : ONLY_LISTED;
    if (is_first(said, "none") && !said[4 + (said[4] == '\n')]) return true;
    take_names(all ? said + 3 + (said[3] != 0) : said, *said == '-');
    return true;
}
