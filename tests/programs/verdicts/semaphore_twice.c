// Verdict: violation add_twice
// Blocks: add_twice,add
// A semaphore as a mutex, which a block takes twice; the other thread has it in between.
#include "steps.h"
#include <pthread.h>
#include <semaphore.h>
static sem_t s;
static int x;
static void add(void) {
    sem_wait(&s);
    x++;
    sem_post(&s);
}
static void add_twice(void) {
    sem_wait(&s);
    int seen = x;
    sem_post(&s);
    make(0);
    await(1);
    sem_wait(&s);
    x = seen + 2;
    sem_post(&s);
}
static void *other(void *u) {
    await(0);
    add();
    make(1);
    return u;
}
int main(void) {
    pthread_t t;
    sem_init(&s, 0, 1);
    pthread_create(&t, 0, other, 0);
    add_twice();
    pthread_join(t, 0);
    return x != 2;
}
