/* explain stop|all|plain LABEL..: makes one event after the other, with the labels left out, stops at the first violation that is certain, and shows it.
 * With `stop` it aborts then; with `all` it goes on to the end, and with `plain` nothing is to be shown. */
#include <aerodrome.h>
#include <stdio.h>
#include <stdlib.h>
#include <string.h>

static const char *const events[] = {
    "T1|begin(withdraw)\n", "T1|r(balance)\n", "T2|begin(deposit)\n", "T2|w(balance)\n", "T2|end\n", "T1|w(balance)\n", "T1|end\n", "T3|w(log)\n",
};

static void fail(const char *what, uint32_t status)
{
    printf("%s: status %u\n", what, status);
    exit(1);
}

/* The lines that show the violation, which are first asked for without room for them. */
static size_t show(struct aerodrome *monitor)
{
    size_t length = 0, again = 0;
    char *lines;
    uint32_t status = aerodrome_cycle(monitor, NULL, 0, &length);
    if (status != (length == 0 ? AERODROME_DONE : AERODROME_SHORT)) {
        fail("cycle without room", status);
    }
    lines = malloc(length + 1);
    if (lines == NULL) {
        exit(1);
    }
    if (length != 0) {
        status = aerodrome_cycle(monitor, lines, length - 1, &again);
        if (status != AERODROME_SHORT || again != length) {
            fail("cycle with a byte too few", status);
        }
    }
    status = aerodrome_cycle(monitor, lines, length, &again);
    if (status != AERODROME_DONE || again != length) {
        fail("cycle", status);
    }
    printf("%.*s", (int)length, lines);
    free(lines);
    return length;
}

static void begin(struct aerodrome *monitor, int count, char **words)
{
    char labels[256] = "";
    uint32_t status;
    for (int i = 2; i < count; i++) {
        strncat(labels, words[i], 64);
        strcat(labels, "\n");
    }
    status = strcmp(words[1], "plain") == 0 ? aerodrome_begin_labelled(monitor, true, labels, strlen(labels), false)
                                            : aerodrome_begin_explained(monitor, true, labels, strlen(labels), false);
    if (status != AERODROME_DONE) {
        fail("begin", status);
    }
}

int main(int count, char **words)
{
    struct aerodrome monitor = AERODROME_NONE;
    struct aerodrome_verdict verdict;
    char line[AERODROME_LINE];
    size_t length, shown = 0;
    if (count < 2) {
        return 1;
    }
    begin(&monitor, count, words);
    for (size_t made = 0; made < sizeof events / sizeof *events; made++) {
        uint32_t status = aerodrome_feed(&monitor, events[made], strlen(events[made]));
        if (status != AERODROME_DONE) {
            fail("feed", status);
        }
        if (shown == 0 && (shown = show(&monitor)) != 0) {
            printf("shown after %zu events\n", made + 1);
            fflush(stdout);
            if (strcmp(words[1], "stop") == 0) {
                abort();
            }
        }
    }
    if (aerodrome_verdict(&monitor, &verdict, line, sizeof line, &length) != AERODROME_DONE) {
        return 1;
    }
    printf("%.*s", (int)length, line);
    return 0;
}
