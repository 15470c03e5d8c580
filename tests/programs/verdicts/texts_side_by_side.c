// Verdict: serializable
// Blocks: name_it
// A record is set to 0 as a whole. One thread copies its name of six bytes, and then reads it, and another one the tag behind the name.
#include "steps.h"
#include <pthread.h>
#include <string.h>

static struct {
    char name[6], tag[6];
} *record;

static int name_it(const char *from) {
    char back[6];
    memcpy(record->name, from, 6);
    make(0);
    await(1);
    memcpy(back, record->name, 6);
    return back[0];
}

static void *other(void *unused) {
    await(0);
    memcpy(record->tag, "world", 6);
    make(1);
    return unused;
}

int main(void) {
    pthread_t thread;
    record = malloc(sizeof *record);
    memset(record, 0, sizeof *record);
    pthread_create(&thread, NULL, other, NULL);
    int first = name_it("hello");
    pthread_join(thread, NULL);
    return first != 'h';
}
