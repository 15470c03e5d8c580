// Verdict: serializable
// Blocks: use
// One of two permits was never taken before the third user takes it: it needs no post of the first one, who posts in its block.
#include "steps.h"
#include <pthread.h>
#include <semaphore.h>
static sem_t s;
static int x, seen;
static void use(void) {
    sem_wait(&s);
    sem_post(&s);
    make(0);
    await(2);
    seen = x;
}
static void *first(void *u) {
    use();
    return u;
}
static void *second(void *u) {
    await(0);
    sem_wait(&s);
    make(1);
    return u;
}
static void *third(void *u) {
    await(1);
    sem_wait(&s);
    x = 1;
    make(2);
    return u;
}
int main(void) {
    pthread_t t[3];
    sem_init(&s, 0, 2);
    pthread_create(&t[0], 0, first, 0);
    pthread_create(&t[1], 0, second, 0);
    pthread_create(&t[2], 0, third, 0);
    for (int i = 0; i < 3; i++) pthread_join(t[i], 0);
    return seen - 1;
}
