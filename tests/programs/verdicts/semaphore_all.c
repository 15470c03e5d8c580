// Verdict: violation early
// Blocks: early
// Who waits twice needs both posts, which were there before: so the block that posts first, and reads behind that, isn't atomic.
#include "steps.h"
#include <pthread.h>
#include <semaphore.h>
static sem_t s;
static int x, seen;
static void early(void) {
    sem_post(&s);
    make(0);
    await(2);
    seen = x;
}
static void *one(void *u) {
    early();
    return u;
}
static void *two(void *u) {
    await(0);
    sem_post(&s);
    make(1);
    return u;
}
static void *three(void *u) {
    await(1);
    sem_wait(&s);
    sem_wait(&s);
    x = 1;
    make(2);
    return u;
}
int main(void) {
    pthread_t t[3];
    sem_init(&s, 0, 0);
    pthread_create(&t[0], 0, one, 0);
    pthread_create(&t[1], 0, two, 0);
    pthread_create(&t[2], 0, three, 0);
    for (int i = 0; i < 3; i++) pthread_join(t[i], 0);
    return seen - 1;
}
