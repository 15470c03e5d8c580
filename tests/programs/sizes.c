/* Accesses of several sizes to the same bytes: each line of main is one, or a copy. */
#include <string.h>

typedef volatile union {
    long whole;
    int half[2];
    short quarter[4];
    char byte[8];
} eight;
static eight halves, copied, split, flags, filled;
static struct { char name[5]; volatile char flag; char more[2]; } mixed;
static long to;

static void copy(eight *from, size_t bytes) { memcpy(&to, (void *)from, bytes); }

int main(void) {
    size_t all = 8, five = 5;
    halves.half[0] = 1;
    halves.half[1] = 1;
    copy(&halves, all);

    copy(&copied, all);
    copied.half[1] = 1;
    copied.half[0] = 1;

    split.whole = 1;
    (void)split.half[1];
    split.half[1] = 1;
    split.half[0] = 1;
    (void)split.whole;

    flags.byte[2] = 1;
    flags.byte[3] = 1;
    (void)flags.quarter[1];
    flags.half[0] = 1;
    flags.half[1] = 1;

    memset((void *)&filled, 1, all);
    filled.whole = 1;
    memset((void *)&filled, 1, all);

    mixed.flag = 1;
    memset(mixed.name, 1, five);
    mixed.flag = 1;
    return 0;
}
