// Verdict: serializable
// Blocks: store,clear_yard
// An inventory has two forklifts, which are the permits of a semaphore. Two threads each take one at the same time, and give it back,
// so neither waits for the other. At the end one thread takes both.
#include "steps.h"
#include <pthread.h>
#include <semaphore.h>
static sem_t forklifts;
static int shelves[2][4];

static void store(int shelf, int item, void (*underway)(void)) {
    sem_wait(&forklifts);
    for (int place = 0; place < 4; place++) {
        if (shelves[shelf][place]) continue;
        shelves[shelf][place] = item;
        break;
    }
    underway();
    shelves[shelf][3]++;
    sem_post(&forklifts);
}
static int clear_yard(void) {
    int found = 0;
    sem_wait(&forklifts);
    sem_wait(&forklifts);
    for (int shelf = 0; shelf < 2; shelf++)
        for (int place = 0; place < 3; place++) found += shelves[shelf][place] != 0;
    return found;
}
UNLOGGED void lets_other_in(void) {
    make(0);
    await(1);
}
UNLOGGED void goes_on(void) {}
static void *second_driver(void *unused) {
    await(0);
    store(1, 22, goes_on);
    make(1);
    return unused;
}
int main(void) {
    pthread_t thread;
    sem_init(&forklifts, 0, 2);
    pthread_create(&thread, NULL, second_driver, NULL);
    store(0, 11, lets_other_in);
    pthread_join(thread, NULL);
    return clear_yard() != 2;
}
