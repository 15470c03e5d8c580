// Verdict: serializable
// Blocks: add
// A semaphore as a mutex: one waits for it while the other has it.
#include "steps.h"
#include <pthread.h>
#include <semaphore.h>
static sem_t s;
static int x;
static void add(int first) {
    sem_wait(&s);
    x++;
    if (first) make(0);
    x++;
    sem_post(&s);
}
static void *other(void *u) {
    await(0);
    for (int i = 0; i < 50; i++) add(0);
    return u;
}
int main(void) {
    pthread_t t;
    sem_init(&s, 0, 1);
    pthread_create(&t, 0, other, 0);
    add(1);
    for (int i = 0; i < 50; i++) add(0);
    pthread_join(t, 0);
    return x != 202;
}
