/* What the loggers for C and for Go do alike with the words that a user gives them: values of variables, lists of names, and patterns.
 * Each file that needs them has a copy of its own: the two loggers are two objects. */
#ifndef AERODROME_WORDS_H
#define AERODROME_WORDS_H
#include <errno.h>
#include <stdbool.h>
#include <stdint.h>
#include <stdio.h>
#include <stdlib.h>
#include <string.h>

void aero_say(const char *what, const char *why);

/* ---- variables */

/* The number that the text is, with its unit; -1: none. */
static inline int64_t number_in(const char *text) {
    static const char units[] = "KMG";
    char *end;
    if (*text < '0' || *text > '9') return -1;
    errno = 0;
    unsigned long long number = strtoull(text, &end, 10);
    const char *unit = *end ? strchr(units, *end) : NULL;
    int shift = unit ? 10 * (int)(unit - units + 1) : 0;
    if (errno || end[unit != NULL] || number > (unsigned long long)INT64_MAX >> shift) return -1;
    return (int64_t)(number << shift);
}

/* Prints that the variable can't be used as it is, and returns 0. */
static inline bool refuses(const char *variable, const char *text, const char *wanted) {
    char what[256], why[256];
    snprintf(what, sizeof what, "%s=%.180s", variable, text);
    snprintf(why, sizeof why, "%s is wanted: nothing is logged", wanted);
    aero_say(what, why);
    return false;
}

/* The value of the variable; NULL if it is missing or empty. */
static inline const char *text_of(const char *variable) {
    const char *text = getenv(variable);
    return text && *text ? text : NULL;
}

/* Sets the number to the variable's, and returns whether it is one of those that are wanted, in `bits`. */
static inline bool is_one_of(const char *variable, unsigned bits, const char *wanted, int *number) {
    const char *text = text_of(variable);
    if (!text) return true;
    int64_t said = number_in(text);
    if (said < 0 || said > 31 || !(bits >> said & 1)) return refuses(variable, text, wanted);
    *number = (int)said;
    return true;
}

/* Prints why the log can't be opened, by errno. */
static inline void refuses_target(const char *target) {
    char why[256];
    const char *reason = errno == EWOULDBLOCK ? "another process writes its log there" : strerror(errno);
    snprintf(why, sizeof why, "%.200s: nothing is logged", reason);
    aero_say(target, why);
}

/* ---- lists of names */

static inline bool begins(const char *text, const char *with) { return !strncmp(text, with, strlen(with)); }

/* Copies the lines, except empty ones and those that begin with #, to a text that has room for all and is zeroed. */
static inline void take_lines(char *text, const char *bytes, size_t size) {
    bool is_new = true, is_comment = false;
    char *to = text;
    for (size_t place = 0; place < size; place++) {
        char byte = bytes[place];
        if (is_new) is_comment = byte == '#';
        is_new = byte == '\n';
        if (!is_comment && byte != '\r' && !(is_new && to > text && to[-1] == '\n')) *to++ = byte;
    }
}

/* How long the name is with which the list begins. A comma within brackets, as in pair<int, long>::get, belongs to it. `opening` and
 * `closing` have the brackets that names have in the language. */
static inline size_t name_length(const char *list, const char *opening, const char *closing) {
    int depth = 0;
    size_t length = 0;
    for (; list[length] && list[length] != '\n'; length++) {
        char byte = list[length];
        if (byte == ',' && depth <= 0) break;
        depth += (strchr(opening, byte) != NULL) - (strchr(closing, byte) != NULL);
    }
    return length;
}

/* Whether the list begins with that word. */
static inline bool is_first(const char *list, const char *word) {
    size_t length = strlen(word);
    return begins(list, word) && (!list[length] || list[length] == ',' || list[length] == '\n');
}

/* Whether the text is what the name of that length says, whose stars stand for any text. */
static inline bool matches(const char *name, size_t length, const char *text) {
    size_t place = 0, star = length;
    const char *behind = NULL;
    while (*text || place < length) {
        if (place < length && name[place] == '*') {
            star = place++;
            behind = text;
        } else if (place < length && *text && name[place] == *text) {
            place++, text++;
        } else {
            if (star == length || !*behind) return false;
            place = star + 1;
            text = ++behind;
        }
    }
    return true;
}

#endif
