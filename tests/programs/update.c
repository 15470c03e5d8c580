/* Two threads change a structure at the same time: each copies it, waits until both have, changes its copy and copies that back. So
 * the one's change is lost. */
#include "verdicts/steps.h"
#include <pthread.h>
#include <string.h>

static struct account { long money, count, last; } account = {100, 0, 0};

__attribute__((noinline)) static void load(struct account *to) { memcpy(to, &account, sizeof *to); }
__attribute__((noinline)) static void store(const struct account *from) { memcpy(&account, from, sizeof *from); }
static void update(long by, int own, int others) {
    struct account copy;
    load(&copy);
    make(own);
    await(others);
    copy.money -= by;
    store(&copy);
}
static void *other(void *unused) {
    update(30, 1, 0);
    return unused;
}
int main(void) {
    pthread_t thread;
    pthread_create(&thread, NULL, other, NULL);
    update(20, 0, 1);
    pthread_join(thread, NULL);
    return 0;
}
