/* Symbol tables of the program and its libraries, as their files have them, or files of debugging information that belong to
 * those. */
#include "log.h"

#include <elf.h>
#include <fcntl.h>
#include <link.h>
#include <stdio.h>
#include <stdlib.h>
#include <string.h>
#include <sys/mman.h>
#include <sys/stat.h>
#include <unistd.h>

/* Of several names of one address that comes first which people use: `pay` before `__pay`. */
static int by_address(const void *one, const void *other) {
    const struct symbol *a = one, *b = other;
    if (a->at != b->at) return a->at < b->at ? -1 : 1;
    size_t in_front = strspn(a->name, "_"), in_other = strspn(b->name, "_");
    if (in_front != in_other) return in_front < in_other ? -1 : 1;
    return strcmp(a->name, b->name);
}

/* Of several symbols at one address the first counts. */
void aero_sort_symbols(struct table *table) {
    size_t kept = 0;
    qsort(table->symbols, table->count, sizeof *table->symbols, by_address);
    for (size_t place = 0; place < table->count; place++)
        if (!kept || table->symbols[kept - 1].at != table->symbols[place].at)
            table->symbols[kept++] = table->symbols[place];
    table->count = kept;
}

const struct symbol *aero_symbol_at(const struct table *table, uintptr_t address) {
    size_t low = 0, high = table->count;
    while (low < high) {
        size_t middle = (low + high) / 2;
        if (table->symbols[middle].at <= address) low = middle + 1;
        else high = middle;
    }
    if (!low) return NULL;
    const struct symbol *it = &table->symbols[low - 1];
    return address - it->at < (it->size ? it->size : 1) ? it : NULL;
}

struct image aero_image(const char *path) {
    struct stat is;
    int file = open(path, O_RDONLY | O_CLOEXEC);
    void *at = MAP_FAILED;
    if (file >= 0 && !fstat(file, &is)) at = mmap(NULL, (size_t)is.st_size, PROT_READ, MAP_PRIVATE, file, 0);
    if (file >= 0) close(file);
    return at == MAP_FAILED ? (struct image){NULL, 0} : (struct image){at, (size_t)is.st_size};
}

void aero_drop_image(struct image image) {
    if (image.bytes) munmap((void *)image.bytes, image.size);
}

/* The sections, and how many; NULL and 0 where it is no such file. */
static const ElfW(Shdr) *sections_of(struct image image, int *count) {
    const ElfW(Ehdr) *head = (const void *)image.bytes;
    *count = 0;
    if (!head || image.size < sizeof *head || memcmp(head->e_ident, ELFMAG, SELFMAG)) return NULL;
    if (head->e_shentsize != sizeof(ElfW(Shdr)) || head->e_shoff > image.size) return NULL;
    if ((image.size - head->e_shoff) / sizeof(ElfW(Shdr)) < head->e_shnum) return NULL;
    *count = head->e_shnum;
    return (const void *)(image.bytes + head->e_shoff);
}
static bool is_within(struct image image, const ElfW(Shdr) *section) {
    if (section->sh_type == SHT_NOBITS || section->sh_offset > image.size) return false;
    return section->sh_size <= image.size - section->sh_offset;
}
static const ElfW(Shdr) *section_of(struct image image, unsigned type) {
    int count;
    const ElfW(Shdr) *sections = sections_of(image, &count);
    for (int place = 0; place < count; place++)
        if (sections[place].sh_type == type && is_within(image, &sections[place])) return &sections[place];
    return NULL;
}

/* The text at the place in the section of texts with that number; an empty one where the file has none. */
static const char *text_at(struct image image, unsigned number, size_t place) {
    int count;
    const ElfW(Shdr) *sections = sections_of(image, &count), *it = &sections[number];
    if (number >= (unsigned)count || !is_within(image, it) || place >= it->sh_size) return "";
    const char *text = image.bytes + it->sh_offset + place;
    return memchr(text, 0, it->sh_size - place) ? text : "";
}

/* Calls `each` with each symbol of the section and its name, until it returns 0; and says whether it never did. */
static bool all_of(struct image image, const ElfW(Shdr) *section, bool (*each)(const ElfW(Sym) *, const char *, void *), void *with) {
    const ElfW(Sym) *symbols = (const void *)(image.bytes + section->sh_offset);
    for (size_t place = 0; place < section->sh_size / sizeof *symbols; place++)
        if (!each(&symbols[place], text_at(image, section->sh_link, symbols[place].st_name), with)) return false;
    return true;
}

/* ---- the symbols of a kind */

struct gathering {
    struct table table;
    unsigned kind;
    uintptr_t bias;
};
/* Variables of no byte mark where something begins or ends (__TMC_END__). */
static bool gather(const ElfW(Sym) *it, const char *name, void *with) {
    struct gathering *to = with;
    if ((it->st_info & 15) != to->kind || it->st_shndx == SHN_UNDEF || !*name) return true;
    if (to->kind == STT_OBJECT && !it->st_size) return true;
    to->table.symbols[to->table.count++] = (struct symbol){.at = it->st_value + to->bias, .size = it->st_size, .name = name};
    return true;
}

struct table aero_symbols(struct image image, unsigned kind, uintptr_t bias) {
    struct gathering to = {.kind = kind, .bias = bias};
    const ElfW(Shdr) *section = section_of(image, SHT_SYMTAB);
    if (!section) section = section_of(image, SHT_DYNSYM);
    if (section) to.table.symbols = aero_pages(section->sh_size / sizeof(ElfW(Sym)) * sizeof(struct symbol) + 1);
    if (to.table.symbols) all_of(image, section, gather, &to);
    if (to.table.count) aero_sort_symbols(&to.table);
    return to.table;
}

/* ---- hooks */

static bool is_no_hook(const ElfW(Sym) *it, const char *name, void *with) {
    (void)with;
    return it->st_shndx != SHN_UNDEF || strcmp(name, "__tsan_func_entry") != 0;
}

/* A library has the hook among those that it wants. The program has the logger itself, whatever it offers. */
bool aero_wants_hooks(struct image image) {
    const ElfW(Shdr) *section = section_of(image, SHT_DYNSYM);
    return section && !all_of(image, section, is_no_hook, NULL);
}

static bool is_no_main(const ElfW(Sym) *it, const char *name, void *with) {
    (void)with;
    return it->st_shndx != SHN_UNDEF || strcmp(name, "main") != 0;
}

/* The program's main may be one of a library, as that of gtest_main. */
bool aero_wants_main(struct image image) {
    const ElfW(Shdr) *section = section_of(image, SHT_SYMTAB);
    return section && !all_of(image, section, is_no_main, NULL);
}

/* ---- names that stand in a file of their own, from which strip has taken them out */

/* The section of that name, or NULL. */
static const ElfW(Shdr) *section_called(struct image image, const char *name) {
    int count;
    const ElfW(Shdr) *sections = sections_of(image, &count);
    for (int place = 0; place < count; place++) {
        unsigned names = ((const ElfW(Ehdr) *)image.bytes)->e_shstrndx;
        bool is_called = !strcmp(text_at(image, names, sections[place].sh_name), name);
        if (is_called && is_within(image, &sections[place])) return &sections[place];
    }
    return NULL;
}

/* The build id, in hexadecimal digits; an empty text where there is none. */
static void put_build_id(char *to, size_t most, struct image image) {
    const ElfW(Shdr) *section = section_called(image, ".note.gnu.build-id");
    *to = 0;
    if (!section || section->sh_size < sizeof(ElfW(Nhdr)) + 4) return;
    const ElfW(Nhdr) *note = (const void *)(image.bytes + section->sh_offset);
    const unsigned char *id = (const unsigned char *)(note + 1) + 4;
    if (2 * note->n_descsz >= most || sizeof *note + 4 + note->n_descsz > section->sh_size) return;
    for (size_t byte = 0; byte < note->n_descsz; byte++) sprintf(to + 2 * byte, "%02x", id[byte]);
}

static uint32_t sum_of(struct image image) {
    uint32_t sum = ~0u;
    for (size_t byte = 0; byte < image.size; byte++) {
        sum ^= (unsigned char)image.bytes[byte];
        for (int bit = 0; bit < 8; bit++) sum = sum >> 1 ^ (sum & 1 ? 0xedb88320u : 0);
    }
    return ~sum;
}

/* The image of the file if it has names and is of the same build, which the build id says, or else the file's sum. */
static struct image names_in(const char *path, const char *id, const uint32_t *sum) {
    char other[128];
    struct image image = aero_image(path);
    if (!image.bytes) return image;
    put_build_id(other, sizeof other, image);
    bool is_same = *id ? !strcmp(id, other) : sum && sum_of(image) == *sum;
    if (is_same && section_of(image, SHT_SYMTAB)) return image;
    aero_drop_image(image);
    return (struct image){NULL, 0};
}

/* Where debuggers look: by the build id, and beside the file by the name in .gnu_debuglink, behind which its sum stands. */
struct image aero_names_of(struct image image, const char *path) {
    static const char *const wheres[] = {"%.*s/%s", "%.*s/.debug/%s", "/usr/lib/debug%.*s/%s"};
    char id[128], whole[4096], file[8192];
    struct image found = {NULL, 0};
    if (!image.bytes || section_of(image, SHT_SYMTAB)) return image;
    put_build_id(id, sizeof id, image);
    snprintf(file, sizeof file, "/usr/lib/debug/.build-id/%.2s/%s.debug", id, *id ? id + 2 : "");
    if (*id) found = names_in(file, id, NULL);
    const ElfW(Shdr) *link = section_called(image, ".gnu_debuglink");
    const char *name = link ? image.bytes + link->sh_offset : NULL;
    bool is_whole = link && link->sh_size >= 8 && memchr(name, 0, link->sh_size - 4);
    if (found.bytes || !is_whole || !realpath(path, whole)) return found.bytes ? found : image;
    const uint32_t *sum = (const void *)(name + link->sh_size - 4);
    int folder = (int)(strrchr(whole, '/') - whole);
    for (size_t one = 0; one < sizeof wheres / sizeof *wheres && !found.bytes; one++) {
        snprintf(file, sizeof file, wheres[one], folder, whole, name);
        found = names_in(file, id, sum);
    }
    return found.bytes ? found : image;
}
