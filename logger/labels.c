/* Names as the log has them: those that people know of C++ and Rust functions and variables, within the format's 255 bytes. */
#include "log.h"
#include "words.h"

#include <ctype.h>
#include <stdlib.h>
#include <string.h>

/* Of C++ programs it is there, of others not. */
extern char *__cxa_demangle(const char *, char *, size_t *, int *) __attribute__((weak));

char aero_fitting(char byte) { return byte == '|' || (unsigned char)byte < ' ' || byte == 127 ? '!' : byte; }

/* Ends the text before its parameters: `Bank::pay(long) const` becomes `Bank::pay`, `X::operator()(int)` `X::operator()`. */
static void cut_parameters(char *text) {
    char *end = strrchr(text, ')');
    if (!end || end == text) return;
    int depth = 0;
    for (; end > text; end--) {
        depth += (*end == ')') - (*end == '(');
        if (!depth) break;
    }
    if (end > text) *end = 0;
}

/* Whether it is a word behind the parameters of a function, in which a lambda or a class is: `K::pay(int) const::{lambda()#1}`. */
static bool is_qualifier(const char *word) {
    static const char *const all[] = {"const", "volatile", "&", "noexcept"};
    for (size_t one = 0; one < sizeof all / sizeof *all; one++)
        if (begins(word, all[one])) return strchr(" :&", word[strlen(all[one])]) != NULL;
    return false;
}

static bool is_of_word(char byte) { return isalnum((unsigned char)byte) || byte == '_'; }

/* Where the word `operator` stands, or NULL. */
static char *operator_in(char *text) {
    const size_t length = strlen("operator");
    for (char *at = text; (at = strstr(at, "operator")); at += length)
        if ((at == text || !is_of_word(at[-1])) && !is_of_word(at[length])) return at;
    return NULL;
}

/* Where the name begins behind the type that a template returns: a blank outside brackets stands before it. An operator's name
 * may have blanks itself. */
static char *behind_type(char *text) {
    int depth = 0;
    bool is_behind = false;                  /* the parameters of a function, whose qualifiers may follow */
    char *from = text, *stop = operator_in(text);
    for (char *byte = text; *byte && byte != stop; byte++) {
        depth += (*byte == '<' || *byte == '(' || *byte == '{') - (*byte == '>' || *byte == ')' || *byte == '}');
        if (!depth && *byte == ' ' && !(is_behind && is_qualifier(byte + 1))) from = byte + 1;
        if (!depth) is_behind = *byte == ')' || (is_behind && *byte != ':');
    }
    return *from ? from : text;
}

/* Whether a character of UTF-8 goes on with the byte. */
static bool goes_on(char byte) { return (byte & 0xc0) == 0x80; }

/* A longer text has dots in the place of its middle: it begins with the scope, and ends with the name itself. */
static void put_within(char *to, const char *text, size_t most) {
    static const char dots[] = "...";
    size_t length = strlen(text), head = length, tail = length;
    if (length > most) {
        head = (most - 3) / 2;
        tail = length - (most - 3 - head);
        while (head && goes_on(text[head])) head--;
        while (tail < length && goes_on(text[tail])) tail++;
    }
    for (size_t place = 0; place < head; place++) *to++ = aero_fitting(text[place]);
    for (const char *dot = dots; length > most && *dot;) *to++ = *dot++;
    for (; tail < length; tail++) *to++ = aero_fitting(text[tail]);
    *to = 0;
}

/* ---- symbols that the C++ runtime doesn't read, as it isn't there, or reads at most 1,024 bytes, or knows no modules. Of these the path
 * is read, with <...> in the place of a template's arguments; what isn't understood leaves the symbol as it is. */

static const char *behind_end(const char *at, bool is_expression);

/* Behind the name of so many bytes that begins there, or NULL. */
static const char *behind_name(const char *at, const char **from, size_t *length) {
    char *end;
    if (*at < '1' || *at > '9') return NULL;
    *length = strtoul(at, &end, 10);
    *from = end;
    return strnlen(end, *length) < *length ? NULL : end + *length;
}
static const char *behind_line(const char *at) {
    at += strcspn(at, "_");
    return *at ? at + 1 : NULL;
}

/* Behind a constant: its type, its digits and an E, or a symbol. */
static const char *behind_constant(const char *at) {
    const char *from;
    size_t length;
    if (!strncmp(at, "_Z", 2)) return behind_end(at + 2, false);
    if (*at == 'N') at = behind_end(at + 1, false);
    else if (*at >= '1' && *at <= '9') at = behind_name(at, &from, &length);
    else if (*at == 'S') at = at[1] >= 'a' ? at + 2 : behind_line(at);
    else if (*at) at += *at == 'D' && at[1] ? 2 : 1;
    return at ? behind_end(at + strspn(at, "n0123456789abcdef"), false) : NULL;
}

static const char *behind_d(const char *at) {
    if (at[1] && strchr("tTOw", at[1])) return behind_end(at + 2, at[1] != 'w');
    if (at[1] == 'v' && at[2] >= '0' && at[2] <= '9') return behind_line(at);
    return at[1] ? at + 2 : NULL;
}

/* Behind one part of what stands within brackets. */
static const char *behind_part(const char *at, bool is_expression) {
    static const char calls[][3] = {"cl", "il", "tl", "nw", "na"};
    const char *from;
    size_t length;
    for (size_t one = 0; is_expression && one < sizeof calls / sizeof *calls; one++)
        if (!strncmp(at, calls[one], 2)) return behind_end(at + 2, true);
    if (is_expression && *at == 'f' && (at[1] == 'p' || at[1] == 'L')) return behind_line(at);
    switch (*at) {
    case 0: return NULL;
    case 'L': return behind_constant(at + 1);
    case 'A': return at[1] >= '0' && at[1] <= '9' ? behind_line(at) : at + 1;
    case 'D': return behind_d(at);
    case 'S': return at[1] >= 'a' ? at + 2 : behind_line(at);
    case 'T': return behind_line(at);
    case 'N': case 'I': case 'J': case 'F': case 'Z': return behind_end(at + 1, false);
    case 'X': return behind_end(at + 1, true);
    case 'U': return at[1] == 'l' ? behind_end(at + 2, false) : at[1] == 't' ? behind_line(at) : at + 1;
    default: return *at >= '1' && *at <= '9' ? behind_name(at, &from, &length) : at + 1;
    }
}
/* Behind the E of what began before `at`. */
static const char *behind_end(const char *at, bool is_expression) {
    while (at && *at != 'E') at = behind_part(at, is_expression);
    return at ? at + 1 : NULL;
}

/* Behind the names of the module, as in W4bank, and of its part, WP4part, that the name belongs to. */
static const char *behind_module(const char *at) {
    const char *from;
    size_t length;
    while (at && *at == 'W') at = behind_name(at + 1 + (at[1] == 'P'), &from, &length);
    return at;
}

/* Puts a part of the path, and returns what is behind it in the symbol; NULL: it isn't understood. `last` is where the last name was
 * put, whose constructor may follow; behind that, and before the first name, its length is 0. */
static const char *put_step(char **to, char **last, size_t *last_length, const char *at) {
    const char *from, *behind;
    size_t length;
    at = behind_module(at);
    if (!at) return NULL;
    at += *at == 'L';
    if (*at == 'I') {
        *to = aero_put_text(*to, "<...>");
        return behind_end(at + 1, false);
    }
    bool is_std = !strncmp(at, "St", 2), is_own = (*at == 'C' || *at == 'D') && at[1] >= '0' && at[1] <= '9';
    if (is_std) from = "std", length = 3, behind = at + 2;
    else if (is_own && *last_length) from = *last, length = *last_length, behind = at + 2;
    else behind = behind_name(at, &from, &length);
    if (!behind) return NULL;
    if (*last) *to = aero_put_text(*to, "::");
    if (is_own && *at == 'D') *(*to)++ = '~';
    *last = *to;
    *last_length = is_own ? 0 : length;
    memcpy(*to, from, length);
    *to += length;
    return behind;
}

/* The path, in memory that is the caller's; NULL where it isn't understood. */
static char *path_of(const char *symbol) {
    const char *at = symbol + 2;
    bool is_nested = *at == 'N';
    char *path = malloc(6 * strlen(symbol)), *to = path, *last = NULL;
    size_t last_length = 0;
    if (is_nested) at += 1 + strspn(at + 1, "rVK");
    if (is_nested) at += strspn(at, "RO");
    while (path && at && *at && *at != 'E') {
        at = put_step(&to, &last, &last_length, at);
        /* (behind the name of a function that isn't nested its parameters begin) */
        if (!is_nested && at && *at != 'I' && strncmp(symbol + 2, "St", 2)) break;
    }
    if (path) *to = 0;
    if (path && at && (!is_nested || *at == 'E')) return path;
    free(path);
    return NULL;
}

/* ---- labels */

/* Of count.0 or count.lto_priv.0 the name alone; bump.count is that of a variable in a function, as clang calls it. */
static size_t length_of_variable(const char *symbol) {
    static const char *const suffixes[] = {".lto_priv", ".llvm", ".constprop"};
    size_t length = strcspn(symbol, "@"), shorter;
    do {
        shorter = length;
        while (length && symbol[length - 1] >= '0' && symbol[length - 1] <= '9') length--;
        length = length && length < shorter && symbol[length - 1] == '.' ? length - 1 : shorter;
        for (size_t one = 0; one < sizeof suffixes / sizeof *suffixes; one++) {
            size_t most = strlen(suffixes[one]);
            if (length > most && !memcmp(symbol + length - most, suffixes[one], most)) length -= most;
        }
    } while (length < shorter);
    return length;
}

static bool is_single_colon(const char *at) { return *at == ':' && at[1] != ':' && at[-1] != ':'; }

/* Newer C++ runtimes put a module behind each name: of Counter@bank.core::bump and pay@bank:part the names stay. */
static void take_modules(char *text) {
    char *to = text;
    for (const char *from = text; *from;) {
        if (*from != '@') {
            *to++ = *from++;
            continue;
        }
        for (from++; isalnum((unsigned char)*from) || (*from && strchr("._", *from)) || is_single_colon(from);) from++;
    }
    *to = 0;
}

/* Of name[abi:cxx11], as the C++ library has it for what returns a string, the name stays. */
static void take_versions(char *text) {
    for (char *from; (from = strstr(text, "[abi:"));) {
        char *end = strchr(from, ']');
        if (!end) return;
        memmove(from, end + 1, strlen(end + 1) + 1);
    }
}

/* A suffix of the compiler or of a version, as in pay.constprop.0 and environ@GLIBC, goes. The parts of a coroutine, as in
 * _Z4loopPZ4loopvE13_Z4loopv.Frame.actor, have it in the midst of their names too. */
static char *readable_cpp(const char *symbol, bool is_function) {
    bool is_mangled = !strncmp(symbol, "_Z", 2), is_read = is_mangled && __cxa_demangle;
    char *whole = is_read && strstr(symbol, ".Frame.") ? __cxa_demangle(symbol, NULL, NULL, NULL) : NULL;
    char *clone = whole ? strstr(whole, " [clone ") : NULL;
    size_t length = is_function || is_mangled ? strcspn(symbol, ".@") : length_of_variable(symbol);
    char *plain = whole ? NULL : length ? strndup(symbol, length) : strdup(symbol);
    char *readable = whole || !plain || !is_read ? whole : __cxa_demangle(plain, NULL, NULL, NULL);
    bool is_path = !readable && plain && is_mangled && (readable = path_of(plain));
    if (clone) *clone = 0;
    if (!readable) return plain;
    free(plain);
    take_modules(readable);
    take_versions(readable);
    if (is_function && !is_path) cut_parameters(readable);
    return readable;
}

void aero_put_label(char *to, const char *symbol, bool is_function, size_t most) {
    bool is_rust = aero_is_rust(symbol);
    char *readable = is_rust ? aero_rust_name(symbol) : readable_cpp(symbol, is_function);
    const char *from = readable ? readable : symbol;
    if (readable && is_function && !is_rust && !strncmp(symbol, "_Z", 2)) from = behind_type(readable);
    put_within(to, from, most);
    free(readable);
}

/* ---- the C++ library's own */

bool aero_is_symbol_of_cpp(const char *symbol) {
    static const char *const heads[] = {"St", "9__gnu_cxx", "11__gnu_debug", "14__gnu_internal", "10__cxxabiv1", "9libunwind",
                                        "12_GLOBAL__N_116get_locale_mutexE", "12_GLOBAL__N_122get_locale_cache_mutexE",
                                        "12_GLOBAL__N_116get_palloc_mutexE", "12_GLOBAL__N_118get_freelist_mutexE"};
    if (strncmp(symbol, "_Z", 2)) return false;
    for (symbol += 2; *symbol == 'Z';) symbol++;
    if (*symbol == 'N') symbol += 1 + strspn(symbol + 1, "rVK");
    for (size_t one = 0; one < sizeof heads / sizeof *heads; one++)
        if (begins(symbol, heads[one])) return true;
    return false;
}
