/* judge SIZE except|only|all LABEL FILE..: feeds each file in pieces of SIZE bytes, and writes the verdict as the report has it, and then its numbers. */
#include <aerodrome.h>
#include <stdio.h>
#include <stdlib.h>
#include <string.h>

static uint32_t begin(struct aerodrome *monitor, const char *which, const char *label)
{
    char labels[64];
    if (strcmp(which, "all") == 0) {
        return aerodrome_begin(monitor, false);
    }
    snprintf(labels, sizeof labels, "none\n%s\n", label);
    return aerodrome_begin_labelled(monitor, false, labels, strlen(labels), strcmp(which, "only") == 0);
}

static int judge(const char *name, char **words, size_t size)
{
    struct aerodrome monitor = AERODROME_NONE;
    struct aerodrome_verdict verdict;
    char line[AERODROME_LINE], *piece = malloc(size);
    size_t length;
    FILE *file = fopen(name, "rb");
    if (file == NULL || piece == NULL || begin(&monitor, words[2], words[3]) != AERODROME_DONE) {
        return 1;
    }
    while ((length = fread(piece, 1, size, file)) != 0) {
        if (aerodrome_feed(&monitor, piece, length) != AERODROME_DONE) {
            return 1;
        }
    }
    fclose(file);
    free(piece);
    if (aerodrome_verdict(&monitor, &verdict, line, sizeof line, &length) != AERODROME_DONE) {
        return 1;
    }
    printf("%s%.*s", name, (int)length, line);
    fprintf(stderr, "%u %u %u %u %u %u\n", verdict.kind, verdict.line, verdict.begun, verdict.events, verdict.blocks, verdict.open_blocks);
    return 0;
}

int main(int count, char **words)
{
    for (int i = 4; i < count; i++) {
        if (judge(words[i], words, (size_t)atoi(words[1])) != 0) {
            return 1;
        }
    }
    return 0;
}
