// Verdict: violation name_it
// Blocks: name_it
// A name is copied and then extended, and another thread names in between.
#include "steps.h"
#include <pthread.h>
#include <string.h>
static char name[32];
static void name_it(const char *first, int wait) {
    strncpy(name, first, sizeof name - 1);
    if (wait) {
        make(0);
        await(1);
    }
    strcat(name, ".std");
}
static void *other(void *unused) {
    await(0);
    name_it("other", 0);
    make(1);
    return unused;
}
int main(void) {
    pthread_t thread;
    pthread_create(&thread, NULL, other, NULL);
    name_it("first", 1);
    pthread_join(thread, NULL);
    return strcmp(name, "other.std.std") != 0;
}
