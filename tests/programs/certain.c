/* certain SIZE [LABEL]: feeds standard input in pieces of SIZE bytes, with the blocks of LABEL left out, and asks after each piece whether the verdict is
 * certain. Writes after how many bytes it first was, and the verdict as the report has it. */
#include <aerodrome.h>
#include <stdio.h>
#include <stdlib.h>
#include <string.h>

static uint32_t begin(struct aerodrome *monitor, const char *label)
{
    char labels[64];
    if (label == NULL) {
        return aerodrome_begin(monitor, false);
    }
    snprintf(labels, sizeof labels, "%s\n", label);
    return aerodrome_begin_labelled(monitor, false, labels, strlen(labels), false);
}

int main(int count, char **words)
{
    static char piece[65536];
    struct aerodrome monitor = AERODROME_NONE;
    struct aerodrome_verdict verdict;
    char line[AERODROME_LINE];
    size_t size = count > 1 ? (size_t)atoi(words[1]) : 0, length, fed = 0, from = 0;
    uint32_t is_certain = 0;
    if (size == 0 || size > sizeof piece || begin(&monitor, count > 2 ? words[2] : NULL) != AERODROME_DONE) {
        return 1;
    }
    while ((length = fread(piece, 1, size, stdin)) != 0) {
        fed += length;
        if (aerodrome_feed(&monitor, piece, length) != AERODROME_DONE || aerodrome_certain(&monitor, &is_certain) != AERODROME_DONE) {
            return 1;
        }
        if (from != 0 && !is_certain) {
            printf("no longer certain after %zu bytes\n", fed);
        }
        if (from == 0 && is_certain) {
            from = fed;
            printf("certain after %zu bytes\n", from);
        }
    }
    if (from == 0) {
        printf("not certain before the end\n");
    }
    if (aerodrome_verdict(&monitor, &verdict, line, sizeof line, &length) != AERODROME_DONE) {
        return 1;
    }
    printf("%.*s", (int)length, line);
    return 0;
}
