// Verdict: serializable
// Blocks: use
// Two users of two things at the same time: each has one, and neither waits for the other.
#include "steps.h"
#include <pthread.h>
#include <semaphore.h>
static sem_t free_ones;
static int things[2];
static void use(int which) {
    sem_wait(&free_ones);
    things[which]++;
    make(which);
    await(1 - which);
    things[which]++;
    sem_post(&free_ones);
}
static void *other(void *u) {
    use(1);
    return u;
}
int main(void) {
    pthread_t t;
    sem_init(&free_ones, 0, 2);
    pthread_create(&t, 0, other, 0);
    use(0);
    pthread_join(t, 0);
    return things[0] + things[1] != 4;
}
