/* Makes one event after the other, and stops as soon as the verdict on them is certain. */
#include <aerodrome.h>
#include <stdio.h>
#include <string.h>

static const char *const events[] = {
    "T1|begin(withdraw)\n", "T1|r(balance)\n", "T2|begin(withdraw)\n", "T2|r(balance)\n", "T2|w(balance)\n", "T2|end\n",
    "T1|w(balance)\n",      "T1|end\n",        "T3|w(log)\n",
};

int main(void)
{
    struct aerodrome monitor = AERODROME_NONE;
    struct aerodrome_verdict verdict;
    char line[AERODROME_LINE];
    size_t length, made = 0;
    uint32_t is_certain = 0;
    if (aerodrome_begin(&monitor, true) != AERODROME_DONE) {
        return 1;
    }
    while (!is_certain && made < sizeof events / sizeof *events) {
        if (aerodrome_feed(&monitor, events[made], strlen(events[made])) != AERODROME_DONE
            || aerodrome_certain(&monitor, &is_certain) != AERODROME_DONE) {
            return 1;
        }
        made++;
    }
    printf("stopped after %zu events: %s\n", made, is_certain ? "certain" : "not certain");
    if (aerodrome_verdict(&monitor, &verdict, line, sizeof line, &length) != AERODROME_DONE) {
        return 1;
    }
    printf("%.*s", (int)length, line);
    printf("kind %u, line %u, begun %u\n", verdict.kind, verdict.line, verdict.begun);
    return 0;
}
