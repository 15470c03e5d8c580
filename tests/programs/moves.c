/* Memory that moves, ranges of odd places, and sizes that overflow.
 *
 *   moves moved      there is no room for eight numbers to grow where they are: each is read, and written at its new place
 *   moves range      memset of 10,000 bytes, from the fourth byte of a number on
 *   moves overflow   reallocarray of more than there are addresses, where the product of both numbers seems to be 4 */
#define _GNU_SOURCE
#include <errno.h>
#include <stdint.h>
#include <stdio.h>
#include <stdlib.h>
#include <string.h>

enum { NUMBERS = 8, BYTES = 10000 };
static _Alignas(4096) char range[2 * BYTES];

static int moved(void) {
    volatile long *numbers = malloc(NUMBERS * sizeof *numbers);
    for (int one = 0; one < NUMBERS; one++) numbers[one] = one;
    volatile long *at = realloc((void *)numbers, 1 << 24);
    printf("%p %p\n", (void *)numbers, (void *)at);
    return at[NUMBERS - 1] != NUMBERS - 1;
}

static int overflow(void) {
    char *kept = malloc(64);
    volatile size_t count = SIZE_MAX / 4 + 2;
    kept[63] = 7;
    void *at = reallocarray(kept, count, 4);
    printf("%s, %s\n", at ? "memory" : "none", errno == ENOMEM ? "ENOMEM" : "no reason");
    return at || kept[63] != 7;
}

int main(int words, char **word) {
    const char *what = words > 1 ? word[1] : "";
    volatile size_t bytes = BYTES;
    if (!strcmp(what, "moved")) return moved();
    if (!strcmp(what, "overflow")) return overflow();
    memset(range + 3, 1, bytes);
    return 0;
}
