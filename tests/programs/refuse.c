/* Hands the library NULL, traces that are used up, one that is in use, and buffers that are too small, and writes each status. */
#include <aerodrome.h>
#include <stdio.h>
#include <string.h>

static void show(const char *what, uint32_t status)
{
    static const char *const names[] = {"done", "unheld", "in use", "no memory", "short", "no name", "many labels", "null", "no event", "no flag"};
    printf("%s: %s\n", what, names[status]);
}

int main(void)
{
    struct aerodrome monitor = AERODROME_NONE;
    struct aerodrome_verdict verdict = {0, 0, 0, 0, 0, 0};
    char line[AERODROME_LINE], small[8], many[130];
    size_t length = 0;
    uint32_t is_certain = 0;
    show("feed of none", aerodrome_feed(&monitor, "T1|r(x)\n", 8));
    show("certain of none", aerodrome_certain(&monitor, &is_certain));
    show("verdict of none", aerodrome_verdict(&monitor, &verdict, line, sizeof line, &length));
    show("free of none", aerodrome_free(&monitor));
    show("begin of NULL", aerodrome_begin(NULL, false));
    show("begin", aerodrome_begin(&monitor, false));
    show("feed", aerodrome_feed(&monitor, "T1|r(x)\n", 8));
    show("begin again", aerodrome_begin(&monitor, false));
    show("feed of NULL", aerodrome_feed(NULL, "T1|r(x)\n", 8));
    show("feed by NULL", aerodrome_feed(&monitor, NULL, 8));
    show("feed of no byte by NULL", aerodrome_feed(&monitor, NULL, 0));
    show("feed of too many bytes", aerodrome_feed(&monitor, "T1|r(x)\n", (size_t)PTRDIFF_MAX + 1));
    show("certain of NULL", aerodrome_certain(NULL, &is_certain));
    show("certain to NULL", aerodrome_certain(&monitor, NULL));
    show("verdict of NULL", aerodrome_verdict(NULL, &verdict, line, sizeof line, &length));
    show("verdict to NULL", aerodrome_verdict(&monitor, NULL, line, sizeof line, &length));
    show("line to NULL", aerodrome_verdict(&monitor, &verdict, NULL, sizeof line, &length));
    show("size to NULL", aerodrome_verdict(&monitor, &verdict, line, sizeof line, NULL));
    show("free of NULL", aerodrome_free(NULL));
    show("verdict", aerodrome_verdict(&monitor, &verdict, line, sizeof line, &length));
    printf("%.*s", (int)length, line);
    show("feed of a judged one", aerodrome_feed(&monitor, "T1|r(x)\n", 8));
    show("verdict of a judged one", aerodrome_verdict(&monitor, &verdict, line, sizeof line, &length));
    show("free of a judged one", aerodrome_free(&monitor));
    show("begin once more", aerodrome_begin(&monitor, true));
    memset(small, '.', sizeof small);
    length = 0;
    show("verdict into a small buffer", aerodrome_verdict(&monitor, &verdict, small, sizeof small, &length));
    printf("%zu bytes needed, %.8s written, kind %u\n", length, small, verdict.kind);
    show("begin with a label without its end", aerodrome_begin_labelled(&monitor, false, "withdraw", 8, false));
    show("begin with an empty label", aerodrome_begin_labelled(&monitor, false, "withdraw\n\n", 10, false));
    for (int i = 0; i < 65; i++) {
        many[2 * i] = 'a';
        many[2 * i + 1] = '\n';
    }
    show("begin with 65 labels", aerodrome_begin_labelled(&monitor, false, many, 130, false));
    show("begin with labels at NULL", aerodrome_begin_labelled(&monitor, false, NULL, 3, false));
    show("feed after refused labels", aerodrome_feed(&monitor, "T1|r(x)\n", 8));
    show("begin with 64 labels", aerodrome_begin_labelled(&monitor, false, many, 128, true));
    show("begin with labels again", aerodrome_begin_labelled(&monitor, false, "a\n", 2, false));
    show("free with labels", aerodrome_free(&monitor));
    show("begin for a last time", aerodrome_begin(&monitor, false));
    show("free", aerodrome_free(&monitor));
    show("free of a freed one", aerodrome_free(&monitor));
    show("cycle of none", aerodrome_cycle(&monitor, line, sizeof line, &length));
    show("begin what is to be shown, with a label without its end", aerodrome_begin_explained(&monitor, false, "withdraw", 8, false));
    show("begin what is to be shown, with labels at NULL", aerodrome_begin_explained(&monitor, false, NULL, 3, false));
    show("begin what is to be shown of NULL", aerodrome_begin_explained(NULL, false, NULL, 0, false));
    show("begin what is to be shown", aerodrome_begin_explained(&monitor, false, NULL, 0, false));
    show("begin it again", aerodrome_begin_explained(&monitor, false, NULL, 0, false));
    show("begin it with flags", aerodrome_begin_with(&monitor, AERODROME_EXPLAIN, NULL, 0));
    show("begin with a flag that isn't one", aerodrome_begin_with(&monitor, 16, NULL, 0));
    show("begin with flags of NULL", aerodrome_begin_with(NULL, 0, NULL, 0));
    show("begin with flags and labels at NULL", aerodrome_begin_with(&monitor, 0, NULL, 3));
    show("cycle of NULL", aerodrome_cycle(NULL, line, sizeof line, &length));
    show("cycle to NULL", aerodrome_cycle(&monitor, NULL, sizeof line, &length));
    show("its size to NULL", aerodrome_cycle(&monitor, line, sizeof line, NULL));
    show("cycle where there is none", aerodrome_cycle(&monitor, line, sizeof line, &length));
    printf("%zu bytes\n", length);
    show("free what was to be shown", aerodrome_free(&monitor));
    return 0;
}
