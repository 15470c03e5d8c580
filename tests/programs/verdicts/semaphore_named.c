// Verdict: violation twice
// Blocks: twice,once
// A semaphore by a name, of one permit, is all that orders the two: a block takes it twice.
#include "steps.h"
#include <fcntl.h>
#include <pthread.h>
#include <semaphore.h>
#include <stdio.h>
static sem_t *s;
static void once(void) {
    sem_wait(s);
    sem_post(s);
}
static void twice(void) {
    once();
    make(0);
    await(1);
    once();
}
static void *other(void *u) {
    await(0);
    once();
    make(1);
    return u;
}
int main(void) {
    pthread_t t;
    char name[64];
    snprintf(name, sizeof name, "/aerodrome-%d", (int)getpid());
    s = sem_open(name, O_CREAT | O_EXCL, 0600, 1);
    if (s == SEM_FAILED) return 1;
    sem_unlink(name);
    pthread_create(&t, 0, other, 0);
    twice();
    pthread_join(t, 0);
    return 0;
}
