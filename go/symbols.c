/* The names of the program's global variables and functions, from the table of symbols in its file, which may also be a library that a
 * program of C loads (c-shared). aerodrome-go has go keep the table. Names of functions have what the log has in them: main.Map[...]
 * for each main.Map[int]. */
#include "log.h"
#include "../logger/words.h"

#include <elf.h>
#include <fcntl.h>
#include <stdio.h>
#include <stdlib.h>
#include <sys/mman.h>
#include <sys/stat.h>
#include <unistd.h>

struct symbol {
    word at, size;
    const char *name;
};
static struct symbol *variables;
static size_t variable_count, counter_count;
static const Elf64_Sym *all;
static size_t all_count;
static const char *strings;

bool aero_has_symbols(void) { return all != NULL; }

/* Opens the file that was mapped with this code: the program, whose path may lead to another one by now, or the library. */
static int open_own_file(void) {
    enum { LINE = 4096 + 128 };
    char line[LINE], path[LINE] = "";
    struct stat program;
    unsigned long from, to, node = 0;
    FILE *maps = fopen("/proc/self/maps", "re");
    bool is_found = false;
    while (maps && !is_found && fgets(line, LINE, maps))
        is_found = sscanf(line, "%lx-%lx %*s %*s %*s %lu %[^\n]", &from, &to, &node, path) == 4 && (word)open_own_file - from < to - from;
    if (maps) fclose(maps);
    bool is_program = !is_found || stat("/proc/self/exe", &program) || program.st_ino == node;
    return open(is_program ? "/proc/self/exe" : path, O_RDONLY | O_CLOEXEC);
}

static const char *image(void) {
    struct stat is;
    int file = open_own_file();
    if (file < 0) return NULL;
    void *bytes = fstat(file, &is) ? MAP_FAILED : mmap(NULL, (size_t)is.st_size, PROT_READ, MAP_PRIVATE, file, 0);
    close(file);
    return bytes == MAP_FAILED ? NULL : bytes;
}

static int by_address(const void *one, const void *other) {
    const struct symbol *x = one, *y = other;
    return x->at < y->at ? -1 : x->at > y->at;
}

/* Go's own tables begin with go: or, up to Go 1.19, with go. */
static bool is_variable(const Elf64_Sym *symbol, const char *name) {
    return ELF64_ST_TYPE(symbol->st_info) == STT_OBJECT && symbol->st_size && !begins(name, "go.") && !begins(name, "go:");
}

/* A counter of `go test -cover`, which each function counts on: pkg.GoCover_0_6261, and from Go 1.20 on pkg.goCover_. */
static bool is_counter(const char *name) {
    const char *slash = strrchr(name, '/'), *dot = strchr(slash ? slash : name, '.');
    return dot && (begins(dot, ".GoCover_") || begins(dot, ".goCover_"));
}

void aero_symbols_start(void) {
    extern EXPORT void __tsan_fini(word status, word how);    /* aerodrome-go has renamed it */
    const char *bytes = image();
    if (!bytes) return;
    const Elf64_Ehdr *head = (const void *)bytes;
    const Elf64_Shdr *sections = (const void *)(bytes + head->e_shoff);
    int table = 0;
    while (table < head->e_shnum && sections[table].sh_type != SHT_SYMTAB) table++;
    if (table == head->e_shnum) {
        aero_say("the program has no table of symbols", "its global variables are called by their addresses");
        return;
    }
    all = (const void *)(bytes + sections[table].sh_offset);
    all_count = sections[table].sh_size / sizeof *all;
    strings = bytes + sections[sections[table].sh_link].sh_offset;
    variables = aero_new(all_count * sizeof *variables);
    word bias = 0;
    for (size_t one = 0; one < all_count; one++) {
        const char *name = strings + all[one].st_name;
        if (!strcmp(name, "aerodrome_go_fini")) bias = (word)__tsan_fini - all[one].st_value;
        if (!is_variable(&all[one], name)) continue;
        variables[variable_count++] = (struct symbol){all[one].st_value, all[one].st_size, name};
        counter_count += is_counter(name);
    }
    for (size_t one = 0; one < variable_count; one++) variables[one].at += bias;
    qsort(variables, variable_count, sizeof *variables, by_address);
}

const char *aero_global(word at, word *start, word *end) {
    size_t low = 0, high = variable_count;
    while (low < high) {
        size_t middle = (low + high) / 2;
        if (variables[middle].at <= at) low = middle + 1;
        else high = middle;
    }
    const struct symbol *it = low ? &variables[low - 1] : NULL;
    if (!it || at - it->at >= it->size) return NULL;
    *start = it->at;
    *end = it->at + it->size;
    return it->name;
}

const word *aero_word(const char *variable) {
    size_t one = 0;
    while (one < variable_count && strcmp(variables[one].name, variable)) one++;
    return one < variable_count ? (const word *)variables[one].at : NULL;
}

bool aero_is_counter(word at) {
    word start, end;
    const char *name = counter_count ? aero_global(at, &start, &end) : NULL;
    return name && is_counter(name);
}

static int digit_of(char byte) {
    static const char digits[] = "0123456789abcdef";
    const char *found = byte ? strchr(digits, byte) : NULL;
    return found ? (int)(found - digits) : -1;
}

/* Replaces %2e and the like by their bytes, and returns the end of the text. Go's tables have gopkg.in/yaml%2ev3.Marshal, so that the
 * first dot behind the last slash ends the path of the package. */
char *aero_unescape(char *text) {
    char *to = text;
    for (const char *at = text; *at; at++) {
        int high = *at == '%' ? digit_of(at[1]) : -1, low = high < 0 ? -1 : digit_of(at[2]), byte = high * 16 + low;
        bool is_escaped = low >= 0 && byte > ' ' && byte != 127 && byte != '|';
        *to++ = is_escaped ? (char)byte : *at;
        at += is_escaped ? 2 : 0;
    }
    *to = 0;
    return to;
}

/* What Go's tables of functions have: main.Map[...] for main.Map[go.shape.int_0]. */
static void put_function(char *to, const char *name) {
    const char *open = strchr(name, '['), *close = open ? strrchr(name, ']') : NULL;
    size_t head = close ? (size_t)(open - name) : strlen(name);
    to = mempcpy(to, name, head);
    if (close) to = aero_put(to, "[...");
    strcpy(to, close ? close : "");
}

/* Names of Go have a dot behind the package; those of C don't. */
int aero_each_function(bool (*each)(const char *label)) {
    static char name[4096];
    for (size_t one = 0; one < all_count; one++) {
        const char *text = strings + all[one].st_name;
        if (ELF64_ST_TYPE(all[one].st_info) != STT_FUNC || !all[one].st_shndx || !strchr(text, '.')) continue;
        if (strlen(text) + 8 > sizeof name) continue;
        put_function(name, text);
        if (!each(name)) return 0;
    }
    return 1;
}
