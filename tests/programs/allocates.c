/* Calls each function that allocates, and gives back what it got. With a word: two threads get the same bytes one after the other, which
 * a block uses before and after the other thread has them. */
#define _GNU_SOURCE
#include "verdicts/steps.h"
#include <malloc.h>
#include <pthread.h>
#include <stdio.h>
#include <stdlib.h>
#include <string.h>

static void each(void) {
    char *all[] = {malloc(100), calloc(10, 10), memalign(64, 100), aligned_alloc(64, 128), valloc(100), pvalloc(100), NULL,
                   realloc(malloc(10), 5000), reallocarray(NULL, 10, 10), strdup("text"), realloc(calloc(1, 500), 20)};
    if (posix_memalign((void **)&all[6], 64, 100)) puts("no memory");
    for (size_t one = 0; one < sizeof all / sizeof *all; one++) {
        all[one][0] = 1;
        free(all[one]);
    }
    char *text = NULL;
    if (asprintf(&text, "%d", 42) != 2) puts("no text");
    free(text);
}

static volatile char *shared;
static volatile int same;
static void uses_twice(void) {
    volatile char *mine = shared;
    *mine = 1;
    free((void *)mine);
    make(0);
    await(1);
    mine = malloc(64);
    same += mine == shared;
    *mine = 1;
}
static void *other(void *unused) {
    make(1);
    await(0);
    volatile char *mine = malloc(64);
    same += mine == shared;
    *mine = 1;
    free((void *)mine);
    make(1);
    return unused;
}

int main(int words, char **word) {
    pthread_t thread;
    (void)word;
    for (int turn = 0; turn < 20; turn++) each();
    if (words > 1) {
        pthread_create(&thread, NULL, other, NULL);
        shared = malloc(64);
        await(1);
        uses_twice();
        pthread_join(thread, NULL);
        puts(same == 2 ? "at one address" : "elsewhere");
    }
    puts("well");
    return 0;
}
