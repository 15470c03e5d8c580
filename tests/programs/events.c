/* Hands the library events one by one, some of which are none, and writes each status, when the verdict is certain, and the verdict. */
#include <aerodrome.h>
#include <stdio.h>
#include <string.h>

static const char *const names[] = {"done", "unheld", "in use", "no memory", "short", "no name", "many labels", "null", "no event"};

static void show(struct aerodrome *monitor, int operation, const char *thread, const char *target)
{
    uint32_t is_certain = 0;
    uint32_t status = aerodrome_event(monitor, operation, thread, target);
    aerodrome_certain(monitor, &is_certain);
    printf("%s%s\n", names[status], is_certain ? ", certain" : "");
}

int main(void)
{
    struct aerodrome monitor = AERODROME_NONE;
    struct aerodrome_verdict verdict;
    char line[AERODROME_LINE], longest[257];
    size_t length;
    memset(longest, 'x', sizeof longest);
    longest[255] = 0;
    printf("%s\n", names[aerodrome_event(&monitor, AERODROME_READ, "T1", "x")]);
    printf("%s\n", names[aerodrome_begin(&monitor, false)]);
    /* No events. */
    show(NULL, AERODROME_READ, "T1", "x");
    show(&monitor, AERODROME_READ, NULL, "x");
    show(&monitor, -1, "T1", "x");
    show(&monitor, 8, "T1", "x");
    show(&monitor, AERODROME_WRITE, "T1", NULL);
    show(&monitor, AERODROME_JOIN, "T1", NULL);
    show(&monitor, AERODROME_END, "T1", "x");
    show(&monitor, AERODROME_READ, "", "x");
    show(&monitor, AERODROME_READ, "T1", "");
    show(&monitor, AERODROME_READ, "T|1", "x");
    show(&monitor, AERODROME_READ, "T1", "x\n");
    show(&monitor, AERODROME_READ, " T1", "x");
    show(&monitor, AERODROME_READ, "T1\t", "x");
    longest[255] = 'x';
    longest[256] = 0;
    show(&monitor, AERODROME_READ, "T1", longest);
    longest[255] = 0;
    /* The lines 1 to 11. */
    show(&monitor, AERODROME_FORK, "T1", "T2");
    show(&monitor, AERODROME_BEGIN, "T1", "pay (all)");
    show(&monitor, AERODROME_BEGIN, "T2", NULL);
    show(&monitor, AERODROME_ACQUIRE, "T1", "m");
    show(&monitor, AERODROME_WRITE, "T1", longest);
    show(&monitor, AERODROME_RELEASE, "T1", "m");
    show(&monitor, AERODROME_READ, "T2", longest);
    show(&monitor, AERODROME_WRITE, "T2", "y )");
    show(&monitor, AERODROME_READ, "T1", "z");
    show(&monitor, AERODROME_END, "T2", NULL);
    show(&monitor, AERODROME_READ, "T1", "y )");
    if (aerodrome_verdict(&monitor, &verdict, line, sizeof line, &length) != AERODROME_DONE) {
        return 1;
    }
    printf("%.*s", (int)length, line);
    return 0;
}
