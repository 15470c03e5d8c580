/* shows [SIZE]: feeds standard input as it comes, in pieces of SIZE bytes (65,536), and writes the lines that show its violation, if one is certain. */
#include <aerodrome.h>
#include <stdio.h>
#include <stdlib.h>

int main(int count, char **words)
{
    static char piece[65536];
    struct aerodrome monitor = AERODROME_NONE;
    size_t size = count > 1 ? (size_t)atoi(words[1]) : sizeof piece, length, again = 0;
    uint32_t status;
    char *lines;
    if (size == 0 || size > sizeof piece || aerodrome_begin_explained(&monitor, false, NULL, 0, false) != AERODROME_DONE) {
        return 1;
    }
    while ((length = fread(piece, 1, size, stdin)) != 0) {
        if (aerodrome_feed(&monitor, piece, length) != AERODROME_DONE) {
            return 1;
        }
    }
    status = aerodrome_cycle(&monitor, NULL, 0, &length);
    if (status != (length == 0 ? AERODROME_DONE : AERODROME_SHORT) || (lines = malloc(length + 1)) == NULL) {
        return 1;
    }
    if (aerodrome_cycle(&monitor, lines, length, &again) != AERODROME_DONE || again != length) {
        return 1;
    }
    fwrite(lines, 1, length, stdout);
    free(lines);
    return aerodrome_free(&monitor) == AERODROME_DONE ? 0 : 1;
}
