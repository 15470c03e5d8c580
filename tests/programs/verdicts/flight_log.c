// Verdict: violation count_repeat
// Blocks: count_repeat,acknowledge
// An entry of a flight log packs its fields into the bits of one word. One thread counts a repetition, and another one acknowledges the
// entry in between. These are different fields, but one place in memory.
#include "steps.h"
#include <pthread.h>
#include <stdio.h>
struct entry {
    unsigned severity : 3;
    unsigned acknowledged : 1;
    unsigned repeats : 12;
};
static struct entry entries[3];
static char line[40];

static unsigned count_repeat(struct entry *entry) {
    unsigned before = entry->repeats;
    make(0);
    await(1);
    entry->repeats = before + 1;
    return before;
}
static void acknowledge(struct entry *entry) {
    entry->acknowledged = 1;
}
static void show(const struct entry *entry) {
    unsigned severity = entry->severity, acknowledged = entry->acknowledged, repeats = entry->repeats;
    snprintf(line, sizeof line, "%u %u %u", severity, acknowledged, repeats);
}
static void *pilot(void *entry) {
    await(0);
    acknowledge(entry);
    make(1);
    return NULL;
}
int main(void) {
    pthread_t thread;
    struct entry *entry = &entries[1];
    entry->severity = 5;
    entry->repeats = 1000;
    pthread_create(&thread, NULL, pilot, entry);
    unsigned before = count_repeat(entry);
    pthread_join(thread, NULL);
    show(entry);
    return !(before == 1000 && entry->repeats == 1001 && line[0] == '5');
}
