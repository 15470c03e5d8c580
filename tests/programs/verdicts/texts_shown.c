// Verdict: violation shows
// Blocks: shows
// A record is set to 0 as a whole, and its name and tag are then copied apart. One thread reads the whole record twice, and in between
// another one copies only a new tag.
#include "steps.h"
#include <pthread.h>
#include <string.h>

struct record {
    char name[6], tag[6];
};
static struct record *record;

static int shows(void) {
    struct record before, after;
    memcpy(&before, record, sizeof before);
    make(0);
    await(1);
    memcpy(&after, record, sizeof after);
    return before.tag[0] == after.tag[0];
}

static void *other(void *unused) {
    await(0);
    memcpy(record->tag, "again", 6);
    make(1);
    return unused;
}

int main(void) {
    pthread_t thread;
    record = malloc(sizeof *record);
    memset(record, 0, sizeof *record);
    memcpy(record->name, "hello", 6);
    memcpy(record->tag, "world", 6);
    pthread_create(&thread, NULL, other, NULL);
    int is_same = shows();
    pthread_join(thread, NULL);
    return is_same;
}
