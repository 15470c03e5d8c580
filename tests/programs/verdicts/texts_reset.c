// Verdict: violation tag_it
// Blocks: tag_it
// A record is set to 0 as a whole, and its name and tag are then copied apart. One thread copies the tag and reads it back, and in between
// another one sets the whole record to 0 again.
#include "steps.h"
#include <pthread.h>
#include <string.h>

static struct {
    char name[6], tag[6];
} *record;

static int tag_it(void) {
    char back[6];
    memcpy(record->tag, "first", 6);
    make(0);
    await(1);
    memcpy(back, record->tag, 6);
    return back[0];
}

static void *other(void *unused) {
    await(0);
    memset(record, 0, sizeof *record);
    make(1);
    return unused;
}

int main(void) {
    pthread_t thread;
    record = malloc(sizeof *record);
    memset(record, 0, sizeof *record);
    memcpy(record->name, "hello", 6);
    memcpy(record->tag, "world", 6);
    pthread_create(&thread, NULL, other, NULL);
    int byte = tag_it();
    pthread_join(thread, NULL);
    return byte;
}
