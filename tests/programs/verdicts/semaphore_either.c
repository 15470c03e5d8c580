// Verdict: serializable
// Blocks: early
// Two posts are there, either of which lets the wait through: it needs none of them, and least of all the first one, in a block.
#include "steps.h"
#include <pthread.h>
#include <semaphore.h>
static sem_t s;
static pthread_mutex_t m = PTHREAD_MUTEX_INITIALIZER;
static int x, seen;
static void early(void) {
    sem_post(&s);
    make(0);
    await(2);
    pthread_mutex_lock(&m);
    seen = x;
    pthread_mutex_unlock(&m);
}
static void *one(void *u) {
    early();
    return u;
}
static void *two(void *u) {
    await(0);
    sem_post(&s);
    make(1);
    return u;
}
static void *three(void *u) {
    await(1);
    sem_wait(&s);
    pthread_mutex_lock(&m);
    x = 1;
    pthread_mutex_unlock(&m);
    make(2);
    return u;
}
int main(void) {
    pthread_t t[3];
    sem_init(&s, 0, 0);
    pthread_create(&t[0], 0, one, 0);
    pthread_create(&t[1], 0, two, 0);
    pthread_create(&t[2], 0, three, 0);
    for (int i = 0; i < 3; i++) pthread_join(t[i], 0);
    return seen - 1;
}
