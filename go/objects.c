/* What was allocated, and the names of variables. An object is called by the function that allocated it and a number,
 * main.NewBank#3, so that an address that is used again is another variable. It gets the number with its first line. The number is
 * given back when the object is freed or its memory has another one, and is used again at a quiet moment: a server that runs for
 * long has no more names than it needs at once, and the checker takes 2^26. */
#include "log.h"

/* Where the heap of a program for the race detector lies on linux/amd64, all of it (runtime/malloc.go: mallocinit). */
#define HEAP 0xc000000000ull
#define HEAP_BYTES (0xe000000000ull - HEAP)
enum { MOST_OBJECTS = 1 << 28, MOST_IN_NAME = 200 };

static uint32_t *units;              /* for each eight bytes of the heap the place of their object in `objects`, or 0 */
static struct object *objects;
static uint32_t object_count, first_free;        /* freed ones are linked by `number` */
static uint16_t *heap_parts, *global_parts;
static word globals_from, globals_to;

static bool is_in_heap(word at) { return at - HEAP < HEAP_BYTES; }
static uint32_t place_of(word at) { return is_in_heap(at) ? units[(at - HEAP) >> 3] : 0; }

struct object *aero_object(word at) {
    uint32_t place = place_of(at);
    return place ? &objects[place] : NULL;
}

/* Without the room for the tables, as under a limit of address space, nothing is logged. */
bool aero_objects_start(void) {
    units = aero_pages(HEAP_BYTES / 8 * sizeof *units);
    heap_parts = aero_pages(HEAP_BYTES / 8 * sizeof *heap_parts);
    objects = aero_pages((size_t)MOST_OBJECTS * sizeof *objects);
    return units && heap_parts && objects;
}

void aero_globals(word from, word bytes) {
    if (is_in_heap(from)) return;
    globals_from = from;
    global_parts = aero_pages((bytes + 7) / 8 * sizeof *global_parts);
    globals_to = global_parts ? from + bytes : from;
}

uint16_t *aero_parts(word at) {
    if (is_in_heap(at)) return &heap_parts[(at - HEAP) >> 3];
    return at - globals_from < globals_to - globals_from ? &global_parts[(at - globals_from) >> 3] : NULL;
}

/* ---- objects that come and go */

static void drop(uint32_t place) {
    struct object *it = &objects[place];
    word first = (it->at - HEAP) >> 3;
    aero_drop_syncs(it);
    if (it->number) aero_give_back(&it->by->objects, it->number);
    for (word one = first; one < first + it->units; one++)
        if (units[one] == place) units[one] = 0;
    *it = (struct object){.number = first_free};
    first_free = place;
}

/* Whatever was there is gone, also if nobody has said so, as of stacks. */
static void drop_all(word first, word end) {
    for (word one = first; one < end; one++)
        if (units[one]) drop(units[one]);
}

void aero_allocated(const struct here *here, word at, word bytes) {
    word first = (at - HEAP) >> 3, end = (at - HEAP + bytes + 7) >> 3;
    if (!is_in_heap(at) || end > HEAP_BYTES / 8) return;
    drop_all(first, end);
    uint32_t place = first_free ? first_free : object_count + 1 < MOST_OBJECTS ? ++object_count : 0;
    if (!place) return;
    if (first_free) first_free = objects[place].number;
    objects[place] = (struct object){.at = at, .units = (uint32_t)(end - first), .by = aero_allocator(here)};
    for (word one = first; one < end; one++) units[one] = place;
    memset(heap_parts + first, 0, (end - first) * sizeof *heap_parts);
}

void aero_freed(word at, word bytes) {
    if (is_in_heap(at) && is_in_heap(at + bytes)) drop_all((at - HEAP) >> 3, (at - HEAP + bytes) >> 3);
}

/* ---- names */

static char *put_short(char *to, const char *text, size_t length) {
    size_t head = length > MOST_IN_NAME ? MOST_IN_NAME / 2 : length, tail = length > MOST_IN_NAME ? MOST_IN_NAME / 2 - 3 : 0;
    to = mempcpy(to, text, head);
    return tail ? mempcpy(aero_put(to, "..."), text + length - tail, tail) : to;
}

static char *put_offset(char *to, word offset) {
    if (!offset) return to;
    *to++ = '+';
    return aero_put_number(to, offset, 10);
}

static char *put_object(char *to, struct object *it, word at) {
    bool is_used_again;
    if (!it->number) it->number = aero_take_number(&it->by->objects, &is_used_again);
    to = put_short(to, it->by->text, it->by->length);
    *to++ = '#';
    return put_offset(aero_put_number(to, it->number, 10), at - it->at);
}

char *aero_put_variable(char *to, word at) {
    word start, end;
    struct object *object = aero_object(at);
    if (object) return put_object(to, object, at);
    const char *name = aero_global(at, &start, &end);
    if (!name) return aero_put_number(aero_put(to, "0x"), at, 16);
    *put_short(to, name, strlen(name)) = 0;
    return put_offset(aero_unescape(to), at - start);
}
