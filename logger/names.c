/* Names of functions and global variables of the program and its libraries, and of places in the code. */
#include "log.h"
#include "words.h"

#include <dlfcn.h>
#include <elf.h>
#include <link.h>
#include <signal.h>
#include <stdio.h>
#include <stdlib.h>
#include <string.h>
#include <sys/stat.h>
#include <unistd.h>

/* The program, which is the first one, or a library that was loaded. */
struct object {
    uintptr_t low, high, bias;
    uintptr_t head;          /* where the first bytes of its file lie; 0: nowhere */
    const char *name;        /* of its file, without folders; at most MOST_FILE bytes */
    char *path;
    struct stat file;        /* that of the path, when the object was met */
    struct table functions;  /* those of code that has hooks */
    const char **labels;     /* theirs; NULL: not made yet */
    bool is_read;            /* they were looked for */
    bool is_missing;         /* the file isn't there, or is another one by now */
    bool is_told;            /* that some have no name */
};
#define MOST_OBJECTS 4096
enum { MOST_FILE = 255, MOST_PLACE = MOST_FILE + 32 };
static struct object objects[MOST_OBJECTS];
static int object_count;
struct file_of_cpp aero_files_of_cpp[FILES_OF_CPP];

/* The global variables of an object, from the first byte to the last one. The log's lock is held where these change, or are
 * looked at. */
struct region {
    uintptr_t low, high;
    struct table table;
    const struct symbol **by_name;
};
static struct region regions[MOST_OBJECTS];     /* by their addresses */
static int region_count;
static const struct symbol *recent;             /* the variable that was asked for last */

#define CODE_BITS 20
#define MOST_TRIES 64
static _Atomic(struct code *) codes[1 << CODE_BITS];
lock_word aero_names_lock;
static sigset_t mask_before;

/* Signals wait meanwhile, so that none finds a name half done. */
void aero_lock_names(void) {
    sigset_t all, before;
    sigfillset(&all);
    pthread_sigmask(SIG_BLOCK, &all, &before);
    aero_take(&aero_names_lock);
    mask_before = before;
}
void aero_unlock_names(void) {
    sigset_t before = mask_before;
    aero_let_go(&aero_names_lock);
    pthread_sigmask(SIG_SETMASK, &before, NULL);
}

/* ---- text */

char *aero_put_hex(char *to, uintptr_t number) {
    int shift = number ? 60 - (__builtin_clzl(number) & ~3) : 0;
    for (; shift >= 0; shift -= 4) *to++ = "0123456789abcdef"[number >> shift & 15];
    return to;
}
char *aero_put_text(char *to, const char *text) {
    while (*text) *to++ = *text++;
    return to;
}

/* Memory that is kept to the end, or NULL; the lock of the names is held. */
static void *keep(size_t bytes) {
    static char *room;
    static size_t left;
    bytes = (bytes + 15) & ~(size_t)15;
    if (bytes > left) {
        size_t more = bytes > 65536 ? bytes : 65536;
        room = aero_pages(more);
        left = room ? more : 0;
        if (!room) return NULL;
    }
    left -= bytes;
    room += bytes;
    return room - bytes;
}

static char *keep_text(const char *text) {
    char *kept = keep(strlen(text) + 1);
    if (kept) *aero_put_text(kept, text) = 0;
    return kept;
}

/* ---- objects */

struct search {
    uintptr_t at;
    struct object *found;
    char path[4096];
};
static uintptr_t head_of(const struct dl_phdr_info *info) {
    for (int place = 0; place < info->dlpi_phnum; place++)
        if (info->dlpi_phdr[place].p_type == PT_LOAD && !info->dlpi_phdr[place].p_offset)
            return info->dlpi_addr + info->dlpi_phdr[place].p_vaddr;
    return 0;
}
static int look_into(struct dl_phdr_info *info, size_t size, void *data) {
    struct search *search = data;
    (void)size;
    for (int place = 0; place < info->dlpi_phnum; place++) {
        const ElfW(Phdr) *part = &info->dlpi_phdr[place];
        uintptr_t low = info->dlpi_addr + part->p_vaddr;
        if (part->p_type != PT_LOAD || search->at < low || search->at - low >= part->p_memsz) continue;
        *search->found = (struct object){.low = low, .high = low + part->p_memsz, .bias = info->dlpi_addr, .head = head_of(info)};
        snprintf(search->path, sizeof search->path, "%s", info->dlpi_name);
        return 1;
    }
    return 0;
}

/* From version 2.35 on, the C library can say which object has an address without a lock. dl_iterate_phdr takes that of the loader, which
 * another thread may have that waits for the lock of the names. */
#ifdef DLFO_STRUCT_HAS_EH_DBASE
static int (*find_object)(void *, struct dl_find_object *);
static void find_finder(void) { *(void **)&find_object = dlsym(RTLD_DEFAULT, "_dl_find_object"); }
static bool find(uintptr_t at, struct search *search, struct object *found) {
    struct dl_find_object it;
    if (!find_object || find_object((void *)at, &it)) return false;
    uintptr_t low = (uintptr_t)it.dlfo_map_start;
    *found = (struct object){.low = low, .high = (uintptr_t)it.dlfo_map_end, .bias = it.dlfo_link_map->l_addr, .head = low};
    snprintf(search->path, sizeof search->path, "%s", it.dlfo_link_map->l_name);
    return true;
}
#else
static void find_finder(void) {}
static bool find(uintptr_t at, struct search *search, struct object *found) {
    (void)at, (void)search, (void)found;
    return false;
}
#endif

/* Whether some object has the address in memory now; `search` says which. */
static bool is_in_memory(uintptr_t at, struct search *search, struct object *found) {
    if (find(at, search, found)) return true;
    search->at = at;
    search->found = found;
    search->path[0] = 0;
    return dl_iterate_phdr(look_into, search);
}

/* Whether it is the file that lies in memory there: its first bytes say where its tables are. */
static bool is_file_of(const struct object *object, struct image image) {
    const size_t bytes = sizeof(ElfW(Ehdr));
    return image.bytes && image.size >= bytes && object->head && !memcmp((const void *)object->head, image.bytes, bytes);
}

/* Whether the paths led to one file, that nobody has written to since. */
static bool is_same_file(const struct stat *one, const struct stat *other) {
    return one->st_dev == other->st_dev && one->st_ino == other->st_ino && one->st_mtim.tv_sec == other->st_mtim.tv_sec
        && one->st_mtim.tv_nsec == other->st_mtim.tv_nsec;
}

/* The path of the file that is mapped at the address; an empty one where there is none. */
static void put_path_at(uintptr_t at, char *path, size_t most) {
    FILE *maps = fopen("/proc/self/maps", "re");
    char line[4300];
    *path = 0;
    while (maps && fgets(line, sizeof line, maps)) {
        uintptr_t low, high;
        int behind = 0;
        if (sscanf(line, "%lx-%lx %*s %*s %*s %*s %n", &low, &high, &behind) < 2 || at - low >= high - low) continue;
        line[strcspn(line, "\n")] = 0;
        snprintf(path, most, "%s", line + behind);
        break;
    }
    if (maps) fclose(maps);
}

/* The program has no path of its own in the list of what is loaded. /proc/self/exe leads to its file, also where that was deleted
 * since, but not where ld.so was called to load it. Puts the path as it is shown, and returns the one to open. */
static const char *find_program(const struct object *program, char *shown, size_t most) {
    static const char exe[] = "/proc/self/exe", deleted[] = " (deleted)";
    struct image image = aero_image(exe);
    bool is_exe = is_file_of(program, image);
    aero_drop_image(image);
    if (!is_exe) {
        put_path_at(program->head, shown, most);
        return shown;
    }
    ssize_t length = readlink(exe, shown, most - 1);
    shown[length > 0 ? length : 0] = 0;
    char *end = strstr(shown, deleted);
    if (end && !end[sizeof deleted - 1]) *end = 0;
    return exe;
}

/* A place for an object: that of one that isn't there any more, or else a new one; NULL: there are too many. */
static struct object *place_for_object(void) {
    for (int place = 0; place < object_count; place++)
        if (objects[place].low == objects[place].high) return &objects[place];
    return object_count < MOST_OBJECTS ? &objects[object_count++] : NULL;
}

/* Keeps where the object lies, if it is a file of the C++ library. */
static void note_cpp(const struct object *object) {
    static const char *const names[FILES_OF_CPP] = {"libstdc++.so", "libc++.so", "libc++abi.so", "libunwind.so", "libgcc_s.so"};
    for (size_t one = 0; one < FILES_OF_CPP; one++) {
        if (!begins(object->name, names[one])) continue;
        atomic_store(&aero_files_of_cpp[one].low, object->low);
        atomic_store(&aero_files_of_cpp[one].bytes, object->high - object->low);
    }
}

/* The object whose code has the address, or NULL; the lock of the names is held. */
static struct object *object_at(uintptr_t at) {
    static struct search search;
    struct object now;
    for (int place = 0; place < object_count; place++)
        if (at - objects[place].low < objects[place].high - objects[place].low) return &objects[place];
    if (!is_in_memory(at, &search, &now)) return NULL;
    const char *path = *search.path ? search.path : find_program(&now, search.path, sizeof search.path);
    const char *folder = strrchr(search.path, '/'), *shown = folder ? folder + 1 : search.path;
    struct object *object = place_for_object();
    char name[MOST_FILE + 1] = "";
    if (!object) return NULL;
    for (size_t place = 0; shown[place] && place < MOST_FILE; place++) name[place] = aero_fitting(shown[place]);
    const char *kept = keep_text(name);
    now.name = kept ? kept : "";
    now.path = keep_text(path);
    if (stat(path, &now.file)) now.file = (struct stat){0};
    *object = now;
    note_cpp(&now);
    return object;
}
static bool is_program(const struct object *object) {
    return (uintptr_t)aero_names_start - object->low < object->high - object->low;
}

static bool has_main(const struct table *functions) {
    for (size_t place = 0; place < functions->count; place++)
        if (!strcmp(functions->symbols[place].name, "main")) return true;
    return false;
}

/* Reads the functions of an object whose code has hooks, and returns its variables; the lock of the names is held. */
static struct table read_object(struct object *object) {
    if (object->is_read || !object->path) return (struct table){NULL, 0};
    object->is_read = true;
    struct image image = aero_image(object->path);
    object->is_missing = !is_file_of(object, image);
    if (object->is_missing || (!is_program(object) && !aero_wants_hooks(image))) {
        aero_drop_image(image);
        image = (struct image){NULL, 0};
    }
    if (image.bytes) image = aero_names_of(image, object->path);
    object->functions = aero_symbols(image, STT_FUNC, object->bias);
    if (is_program(object) && !has_main(&object->functions) && !aero_wants_main(image)) aero_lacks_main(object->name);
    return aero_symbols(image, STT_OBJECT, object->bias);
}

/* ---- labels */

/* They are made where the program starts or a library is loaded: to make one takes memory of the program's allocator, which a signal
 * handler may have interrupted, and much of a stack. So no lock of the logger's is held. */
struct making {
    struct table functions;
    const char **labels;
};
static void make_labels(void *given) {
    struct making *making = given;
    enum { CHUNK = 1 << 16 };
    char *to = NULL, *end = NULL;
    making->labels = aero_pages(making->functions.count * sizeof *making->labels);
    for (size_t place = 0; making->labels && place < making->functions.count; place++) {
        if (end - to <= MOST_NAME && (to = aero_pages(CHUNK))) end = to + CHUNK;
        if (!to) {
            making->labels = NULL;
            return;
        }
        making->labels[place] = to;
        aero_put_label(to, making->functions.symbols[place].name, true, MOST_NAME);
        aero_tell_unlogged(to);
        to += strlen(to) + 1;
    }
}
static void label_functions(struct object *object, struct table functions) {
    enum { STACK = 1 << 20 };
    struct making making = {functions, NULL};
    char *stack = functions.count ? aero_pages(STACK) : NULL;
    if (!stack) return;
    aero_call_on(stack + STACK, make_labels, &making);
    aero_free_pages(stack, STACK);
    aero_lock_names();
    if (object->functions.symbols == functions.symbols) object->labels = making.labels;
    aero_unlock_names();
}

/* ---- global variables */

static int by_name(const void *one, const void *other) {
    return strcmp((*(const struct symbol *const *)one)->name, (*(const struct symbol *const *)other)->name);
}

/* Puts the names as the log has them in the place of the symbols', and says whether there was memory for that. */
static bool make_readable(struct table table) {
    enum { MOST = 200 };
    char *room = aero_pages(table.count * (MOST + 1)), *to = room;
    for (size_t place = 0; room && place < table.count; place++) {
        table.symbols[place].is_of_cpp = aero_is_symbol_of_cpp(table.symbols[place].name);
        aero_put_label(to, table.symbols[place].name, false, MOST);
        table.symbols[place].name = to;
        to += strlen(to) + 1;
    }
    return room != NULL;
}

/* A name that others have too, in the same object or in one that was there before, has its address behind it. */
static void tell_apart(struct region *region) {
    size_t count = region->table.count;
    for (size_t place = 0; place < count; place++) region->by_name[place] = &region->table.symbols[place];
    qsort(region->by_name, count, sizeof *region->by_name, by_name);
    for (size_t place = 0; place < count; place++) {
        struct symbol *it = (struct symbol *)region->by_name[place];
        bool is_as_next = place + 1 < count && !by_name(&region->by_name[place], &region->by_name[place + 1]);
        bool is_as_before = place > 0 && !by_name(&region->by_name[place - 1], &region->by_name[place]);
        it->several = is_as_next || is_as_before;
        for (int one = 0; one < region_count && !it->several; one++)
            it->several = bsearch(&region->by_name[place], regions[one].by_name, regions[one].table.count,
                                  sizeof *region->by_name, by_name) != NULL;
    }
}

/* What lay there before is gone: what lies there now are new variables. Says whether there were some. */
static bool forget_regions(uintptr_t low, uintptr_t high) {
    int kept = 0, before = region_count;
    for (int place = 0; place < region_count; place++)
        if (regions[place].low >= high || regions[place].high <= low) regions[kept++] = regions[place];
    if (kept < before) aero_renew(low, high);
    region_count = kept;
    recent = NULL;
    return kept < before;
}

static void add_variables(struct table table) {
    struct region region = {0, 0, table, NULL};
    if (table.count) region.by_name = aero_pages(table.count * sizeof *region.by_name);
    if (!region.by_name || !make_readable(table)) return;
    region.low = table.symbols[0].at;
    for (size_t place = 0; place < table.count; place++) {
        uintptr_t end = table.symbols[place].at + table.symbols[place].size;
        if (end > region.high) region.high = end;
    }
    aero_lock();
    bool again = forget_regions(region.low, region.high);
    aero_unlock();
    for (size_t place = 0; place < table.count; place++) table.symbols[place].again = again;
    tell_apart(&region);
    aero_lock();
    if (region_count < MOST_OBJECTS) {
        int place = region_count++;
        for (; place > 0 && regions[place - 1].low > region.low; place--) regions[place] = regions[place - 1];
        regions[place] = region;
    }
    aero_unlock();
}

static int know_object(struct dl_phdr_info *info, size_t size, void *unused) {
    (void)size, (void)unused;
    for (int place = 0; place < info->dlpi_phnum; place++)
        if (info->dlpi_phdr[place].p_type == PT_LOAD && info->dlpi_phdr[place].p_flags & PF_X) {
            object_at(info->dlpi_addr + info->dlpi_phdr[place].p_vaddr);
            return 0;
        }
    return 0;
}

void aero_names_start(void) {
    find_finder();
    aero_lock_names();
    object_at((uintptr_t)aero_names_start);
    dl_iterate_phdr(know_object, NULL);
    int count = object_count;
    aero_unlock_names();
    for (int place = 0; place < count; place++) {
        aero_lock_names();
        struct table variables = read_object(&objects[place]), functions = objects[place].functions;
        aero_unlock_names();
        label_functions(&objects[place], functions);
        add_variables(variables);
    }
}

/* ---- libraries that dlopen loads */

/* Where another library lay before, what is known of its code goes. */
static void forget_replaced(uintptr_t at) {
    static struct search search;
    struct object now;
    if (!is_in_memory(at, &search, &now)) return;
    if (stat(search.path, &now.file)) now.file = (struct stat){0};
    for (int place = 0; place < object_count; place++) {
        struct object *it = &objects[place];
        bool is_same = it->low == now.low && it->high == now.high && it->path && !strcmp(it->path, search.path)
            && is_same_file(&it->file, &now.file);
        if (is_same || is_program(it) || it->low >= now.high || it->high <= now.low) continue;
        for (size_t slot = 0; slot < (size_t)1 << CODE_BITS; slot++) {
            struct code *code = atomic_load(&codes[slot]);
            if (code && code->at - it->low < it->high - it->low) atomic_store(&code->at, 0);
        }
        it->low = it->high = 0;
    }
}

void aero_library_loaded(uintptr_t code) {
    if (code - objects[0].low < objects[0].high - objects[0].low) return;
    aero_lock_names();
    forget_replaced(code);
    struct object *object = object_at(code);
    bool is_new = object && !object->is_read;
    struct table variables = is_new ? read_object(object) : (struct table){NULL, 0};
    struct table functions = is_new ? object->functions : (struct table){NULL, 0};
    bool is_missing = object && object->is_missing && !object->is_told;
    if (is_missing) object->is_told = true;
    aero_unlock_names();
    if (is_missing) aero_lacks_file(object->name);
    label_functions(object, functions);
    add_variables(variables);
    if (is_new && object->functions.count) aero_look_for_blocks(object->name);
}

/* ---- code */

/* program+0x1234, or 0x1234 for code of no known object. */
static char *put_place(char *to, uintptr_t at) {
    const struct object *object = object_at(at);
    if (object) to = aero_put_text(to, object->name);
    to = aero_put_text(to, object ? "+0x" : "0x");
    return aero_put_hex(to, at - (object ? object->bias : 0));
}

static struct code *new_code(uintptr_t at) {
    char place[MOST_PLACE], *end = place;
    if (aero_settings.places) {
        *end++ = '|';
        /* (the call that the code at the address returns from) */
        end = put_place(end, at - 1);
    }
    size_t length = (size_t)(end - place);
    struct code *code = keep(sizeof *code + length);
    if (!code) return NULL;
    atomic_init(&code->at, at);
    code->length = (unsigned)length;
    for (size_t byte = 0; byte < length; byte++) code->place[byte] = place[byte];
    return code;
}

/* Of so many places in the code none has a place in the table any more. */
static void tell_of_full_table(void) {
    static atomic_int is_told;
    if (!atomic_exchange(&is_told, 1))
        aero_say("the code", "it has too many places, or memory is refused: further events have no place, and further functions are no blocks");
}

const struct code *aero_code(uintptr_t at) {
    size_t first = (at * 0x9e3779b97f4a7c15u) >> (64 - CODE_BITS);
    for (size_t tries = 0; tries < MOST_TRIES; tries++) {
        _Atomic(struct code *) *slot = &codes[(first + tries) & ((1 << CODE_BITS) - 1)];
        struct code *code = atomic_load_explicit(slot, memory_order_acquire);
        if (LIKELY(code && code->at == at)) return code;
        if (code && code->at) continue;
        aero_lock_names();
        code = atomic_load_explicit(slot, memory_order_acquire);
        if (!code || !code->at) atomic_store_explicit(slot, code = new_code(at), memory_order_release);
        aero_unlock_names();
        if (!code) break;
        if (code->at == at) return code;
    }
    tell_of_full_table();
    return NULL;
}

/* The label of a function that has no name, or none made yet, in `label`. */
static const char *label_now(const struct symbol *symbol, const char *nameless, char *label) {
    aero_put_label(label, symbol ? symbol->name : nameless, symbol != NULL, MOST_NAME);
    return label;
}

/* The kind is made out without the lock, and so is a label that isn't made yet. */
const struct code *aero_function(uintptr_t at) {
    struct code *code = (struct code *)aero_code(at);
    if (!code || LIKELY(atomic_load_explicit(&code->label, memory_order_acquire) != NULL)) return code;
    char nameless[MOST_PLACE], label[MOST_NAME + 1];
    aero_lock_names();
    struct object *object = object_at(at);
    const struct symbol *symbol = object ? aero_symbol_at(&object->functions, at) : NULL;
    const char *made = symbol && object->labels ? object->labels[symbol - object->functions.symbols] : NULL;
    bool is_first = object && !symbol && !object->is_told;
    if (is_first) object->is_told = true;
    *put_place(nameless, at) = 0;
    aero_unlock_names();
    if (is_first) aero_lacks_name(object->name);
    const char *shown = made ? made : label_now(symbol, nameless, label);
    int kind = aero_kind(shown, symbol ? symbol->name : NULL, object ? object->name : "");
    aero_lock_names();
    const char *kept = atomic_load(&code->label) ? atomic_load(&code->label) : made ? made : keep_text(shown);
    if (kept) atomic_store(&code->kind, kind);
    if (kept) atomic_store_explicit(&code->label, kept, memory_order_release);
    aero_unlock_names();
    return kept ? code : NULL;
}

bool aero_is_loaded(const char *file, size_t length) {
    for (int place = 0; place < object_count; place++)
        if (matches(file, length, objects[place].name)) return true;
    return false;
}

/* The program may contain them. */
bool aero_is_of_unwinder(uintptr_t code) {
    static const char *const files[] = {"libgcc_s.so", "libstdc++.so", "libunwind.so", "libc++"},
                      *const symbols[] = {"uw_", "_Unwind_", "_ZNSt6locale", "_ZNKSt6locale"};
    bool is_found = false;
    aero_lock_names();
    const struct object *object = object_at(code);
    const struct symbol *symbol = object ? aero_symbol_at(&object->functions, code) : NULL;
    for (size_t one = 0; object && one < sizeof files / sizeof *files; one++)
        is_found |= begins(object->name, files[one]) || (symbol && begins(symbol->name, symbols[one]));
    aero_unlock_names();
    return is_found;
}

void aero_each_function(const char *file, bool (*each)(const char *label, const char *symbol, const char *file)) {
    for (int place = 0; place < object_count; place++) {
        if (file && strcmp(file, objects[place].name)) continue;
        const struct object *it = &objects[place];
        for (size_t one = 0; it->labels && one < it->functions.count; one++)
            if (!each(it->labels[one], it->functions.symbols[one].name, it->name)) return;
    }
}

/* ---- names of variables; the log's lock is held */

static const struct symbol *variable_at(uintptr_t address) {
    if (LIKELY(recent && address - recent->at < recent->size)) return recent;
    int low = 0, high = region_count;
    while (low < high) {
        int middle = (low + high) / 2;
        if (regions[middle].low <= address) low = middle + 1;
        else high = middle;
    }
    if (!low || address >= regions[low - 1].high) return NULL;
    const struct symbol *it = aero_symbol_at(&regions[low - 1].table, address);
    if (it) recent = it;
    return it;
}

bool aero_is_of_contained_cpp(uintptr_t address) {
    const struct symbol *it = variable_at(address);
    return it && it->is_of_cpp;
}

void aero_symbol_bounds(uintptr_t address, uintptr_t *from, uintptr_t *to) {
    const struct symbol *it = variable_at(address);
    *from = it ? it->at : 0;
    *to = it ? it->at + it->size : UINTPTR_MAX;
}

static char *put_number(char *to, uintptr_t number) {
    char digits[24];
    int count = 0;
    do digits[count++] = (char)('0' + number % 10);
    while (number /= 10);
    while (count) *to++ = digits[--count];
    return to;
}

char *aero_put_variable(char *to, uintptr_t address) {
    const struct symbol *it = variable_at(address);
    if (it) {
        to = aero_put_text(to, it->name);
        if (address != it->at) *to++ = '+', to = put_number(to, address - it->at);
        if (it->several) *to++ = '@', to = aero_put_hex(to, it->at);
        uint32_t renewed = aero_generation(address);
        if (UNLIKELY(renewed || it->again)) *to++ = '.', to = put_number(to, renewed + 1);
        return to;
    }
    to = aero_put_hex(aero_put_text(to, "0x"), address);
    uint32_t times = aero_generation(address);
    if (times > 1) *to++ = '.', to = put_number(to, times);
    return to;
}
