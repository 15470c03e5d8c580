/* begins FLAGS LABEL..: judges standard input as a trace that is begun with these flags and labels. It prints the cycle of a violation that is
 * certain by the last line, if that is asked for, and then the line of the verdict. */
#include <aerodrome.h>
#include <stdio.h>
#include <stdlib.h>
#include <string.h>

static int fail(const char *what, uint32_t status)
{
    printf("%s: status %u\n", what, status);
    return 1;
}

int main(int count, char **words)
{
    struct aerodrome monitor = AERODROME_NONE;
    struct aerodrome_verdict verdict;
    char labels[256] = "", piece[16], lines[4096], line[AERODROME_LINE];
    size_t length;
    uint32_t status;
    if (count < 2) {
        return 1;
    }
    for (int i = 2; i < count; i++) {
        strncat(labels, words[i], 64);
        strcat(labels, "\n");
    }
    status = aerodrome_begin_with(&monitor, (uint32_t)strtoul(words[1], NULL, 10), labels, strlen(labels));
    if (status != AERODROME_DONE) {
        return fail("begin", status);
    }
    while ((length = fread(piece, 1, sizeof piece, stdin)) != 0) {
        status = aerodrome_feed(&monitor, piece, length);
        if (status != AERODROME_DONE) {
            return fail("feed", status);
        }
    }
    status = aerodrome_cycle(&monitor, lines, sizeof lines, &length);
    if (status != AERODROME_DONE) {
        return fail("cycle", status);
    }
    printf("%.*s", (int)length, lines);
    status = aerodrome_verdict(&monitor, &verdict, line, sizeof line, &length);
    if (status != AERODROME_DONE) {
        return fail("verdict", status);
    }
    printf("%.*s", (int)length, line);
    return 0;
}
