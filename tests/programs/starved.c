/* Has a trace judged and its violation shown, and refuses one request for memory: the first, then the second, and so on, until a run makes
 * no more. Writes which calls were refused. Fails where a call that comes later isn't refused too, and where all are done, as they may be
 * without that memory, but something else is told. Linked with --wrap for malloc and realloc. */
#include <aerodrome.h>
#include <stdio.h>
#include <stdlib.h>
#include <string.h>

enum { BEGIN, FEED, CYCLE, VERDICT, CALLS };

static const char *const names[CALLS] = {"begin", "feed", "cycle", "verdict"};
static const char trace[] = "T1|begin(withdraw)\nT1|r(balance)\nT2|begin(deposit)\nT2|w(balance)\nT2|end\nT1|w(balance)\nT1|end\n";

/* How many requests come until one is refused, or 0 where none is to be, or was already. */
static size_t left;

static bool refuses(void)
{
    return left != 0 && --left == 0;
}

void *__real_malloc(size_t size);
void *__real_realloc(void *memory, size_t size);

void *__wrap_malloc(size_t size)
{
    return refuses() ? NULL : __real_malloc(size);
}

void *__wrap_realloc(void *memory, size_t size)
{
    return refuses() ? NULL : __real_realloc(memory, size);
}

static const char cycle[] = "  label withdraw\n  2 1 T1|r(balance)\n  4 3 T2|w(balance)\n  6 1 T1|w(balance)\n";
static const char judged[] = ": violation at line 6: block of T1 from line 1\n";

static bool is(const char *text, size_t length, const char *wanted)
{
    return length == strlen(wanted) && memcmp(text, wanted, length) == 0;
}

/* Whether the calls that are done told what is so. */
static bool run(bool explains, uint32_t *statuses)
{
    struct aerodrome monitor = AERODROME_NONE;
    struct aerodrome_verdict verdict;
    char line[AERODROME_LINE], lines[256];
    size_t length = 0, size = 0;
    statuses[BEGIN] = explains ? aerodrome_begin_explained(&monitor, true, "none\n", 5, false) : aerodrome_begin(&monitor, true);
    statuses[FEED] = aerodrome_feed(&monitor, trace, strlen(trace));
    statuses[CYCLE] = aerodrome_cycle(&monitor, lines, sizeof lines, &size);
    statuses[VERDICT] = aerodrome_verdict(&monitor, &verdict, line, sizeof line, &length);
    if (aerodrome_free(&monitor) != AERODROME_UNHELD) {
        printf("a trace is left\n");
        exit(1);
    }
    return (statuses[CYCLE] != AERODROME_DONE || is(lines, size, explains ? cycle : ""))
        && (statuses[VERDICT] != AERODROME_DONE || is(line, length, judged));
}

/* The call that was refused first, which each later one has to say; or CALLS. */
static int refused(const uint32_t *statuses)
{
    int first = 0;
    while (first < CALLS && statuses[first] == AERODROME_DONE) {
        first++;
    }
    for (int call = first; call < CALLS; call++) {
        uint32_t wanted = first == BEGIN && call != BEGIN ? AERODROME_UNHELD : AERODROME_NO_MEMORY;
        if (statuses[call] != wanted) {
            printf("%s: status %u where %u was wanted\n", names[call], statuses[call], wanted);
            exit(1);
        }
    }
    return first;
}

static void starve(bool explains)
{
    bool were[CALLS + 1] = {false};
    uint32_t statuses[CALLS];
    for (size_t number = 1;; number++) {
        left = number;
        if (!run(explains, statuses)) {
            printf("something else is told where request %zu is refused\n", number);
            exit(1);
        }
        if (left != 0) {
            break;
        }
        were[refused(statuses)] = true;
    }
    if (refused(statuses) != CALLS) {
        printf("a refusal is told where there was none\n");
        exit(1);
    }
    for (int call = 0; call < CALLS; call++) {
        printf("%s%s", were[call] ? names[call] : "-", call + 1 < CALLS ? ", " : "\n");
    }
}

int main(void)
{
    starve(true);
    starve(false);
    return 0;
}
