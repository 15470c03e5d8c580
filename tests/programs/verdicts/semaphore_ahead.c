// Verdict: violation produce
// Blocks: produce
// One thread posts and one waits: the first wait needs the first post, also where the second one is there already.
#include "steps.h"
#include <pthread.h>
#include <semaphore.h>
static sem_t s;
static int x, seen;
static void produce(void) {
    sem_post(&s);
    sem_post(&s);
    make(0);
    await(1);
    seen = x;
}
static void *other(void *u) {
    await(0);
    sem_wait(&s);
    x = 1;
    make(1);
    return u;
}
int main(void) {
    pthread_t t;
    sem_init(&s, 0, 0);
    pthread_create(&t, 0, other, 0);
    produce();
    pthread_join(t, 0);
    return seen - 1;
}
