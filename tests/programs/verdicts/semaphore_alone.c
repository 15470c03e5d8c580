// Verdict: violation twice
// Blocks: twice,once
// A semaphore of one permit, which was another one with three posts before, is all that orders the two: a block takes it twice.
#include "steps.h"
#include <pthread.h>
#include <semaphore.h>
static sem_t s;
static void once(void) {
    sem_wait(&s);
    sem_post(&s);
}
static void twice(void) {
    once();
    make(0);
    await(1);
    once();
}
static void *other(void *u) {
    await(0);
    once();
    make(1);
    return u;
}
int main(void) {
    pthread_t t;
    sem_init(&s, 0, 0);
    for (int one = 0; one < 3; one++) sem_post(&s);
    sem_destroy(&s);
    sem_init(&s, 0, 1);
    pthread_create(&t, 0, other, 0);
    twice();
    pthread_join(t, 0);
    return 0;
}
