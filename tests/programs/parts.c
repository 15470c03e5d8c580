/* Random accesses, of which logger/parts.c says which variables they are of. It is compiled with this, and what it calls of the logger
 * is here. Of 24 bytes:
 *
 *   parts any      accesses of any size and place, and copies: of two that share a byte, and one of which writes, an order follows
 *                  from the lines, by other accesses between if need be
 *   parts fields   the bytes are fields of 1, 2, 4 and 8 bytes wherever they lie, and each access is to one: two fields share no
 *                  variable
 *
 * It says how many pairs it compared, and which of them are wrong. */
#include "log.h"

#include <stdio.h>
#include <stdlib.h>
#include <string.h>

enum { BYTES = 24, ACCESSES = 24, SEQUENCES = 20000, BASE = 4096 };
int aero_grain;
static uint16_t parts[BYTES / 8];
static struct access_made {
    unsigned from, to, field, writes;
    unsigned variables;              /* a bit for the first byte of each */
    unsigned before;                 /* a bit for each access that comes before, by the lines */
} made[ACCESSES];
static struct access_made *now;

uint16_t *aero_parts_at(uintptr_t address) { return &parts[(address - BASE) / 8]; }
void aero_symbol_bounds(uintptr_t address, uintptr_t *from, uintptr_t *to) { (void)address, *from = 0, *to = UINTPTR_MAX; }
void aero_line(const char *operation, const char *kind, uintptr_t address, const char *text, uintptr_t code) {
    (void)kind, (void)text, (void)code;
    if ((*operation == 'w') != now->writes) puts("another operation");
    now->variables |= 1u << (address - BASE);
}

static unsigned random_below(unsigned most) {
    static uint64_t state = 1;
    state = state * 6364136223846793005u + 1442695040888963407u;
    return (unsigned)((state >> 33) % most);
}

/* Whether an order between the two follows from the lines of the two alone. */
static int conflict(const struct access_made *one, const struct access_made *other) {
    return (one->variables & other->variables) && (one->writes || other->writes);
}
static void make(unsigned place, unsigned from, unsigned bytes, enum access how) {
    now = &made[place];
    *now = (struct access_made){from, from + bytes, from, random_below(2), 0, 0};
    aero_span(now->writes ? "w" : "r", how, BASE + from, bytes, 0);
    for (unsigned one = 0; one < place; one++)
        if (conflict(&made[one], now)) now->before |= made[one].before | 1u << one;
}

static long compared, wrong;
static void compare(int are_fields) {
    for (unsigned other = 0; other < ACCESSES; other++)
        for (unsigned one = 0; one < other; one++) {
            const struct access_made *a = &made[one], *b = &made[other];
            int share = a->from < b->to && b->from < a->to;
            int is_pair = are_fields ? !share : share && (a->writes || b->writes);
            compared += is_pair;
            wrong += is_pair && (are_fields ? (a->variables & b->variables) != 0 : !(b->before >> one & 1));
        }
}

static void any(void) {
    static const unsigned sizes[] = {1, 2, 4, 8, 16};
    for (unsigned place = 0; place < ACCESSES; place++) {
        int is_copy = random_below(3) == 0;
        unsigned bytes = is_copy ? 1 + random_below(BYTES) : sizes[random_below(5)];
        unsigned from = random_below(BYTES - bytes + 1);
        if (random_below(2)) from -= from % bytes;
        make(place, from, bytes, is_copy || bytes >= 8 ? COPY : PLAIN);
    }
}
static void fields(void) {
    static const unsigned sizes[] = {1, 2, 4, 8};
    unsigned count = 0, from[BYTES + 1] = {0};
    while (from[count] < BYTES) {
        unsigned bytes = sizes[random_below(4)], left = BYTES - from[count];
        from[count + 1] = from[count] + (bytes < left ? bytes : left);
        count++;
    }
    for (unsigned place = 0; place < ACCESSES; place++) {
        unsigned field = random_below(count), bytes = from[field + 1] - from[field];
        make(place, from[field], bytes, bytes >= 8 || random_below(4) == 0 ? COPY : PLAIN);
    }
}

int main(int words, char **word) {
    int are_fields = words > 1 && !strcmp(word[1], "fields");
    for (int sequence = 0; sequence < SEQUENCES; sequence++) {
        memset(parts, 0, sizeof parts);
        if (are_fields) fields();
        else any();
        compare(are_fields);
    }
    printf("%s pairs, %ld wrong\n", compared > 1000000 ? "over a million" : "few", wrong);
    return wrong != 0;
}
