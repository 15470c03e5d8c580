// Verdict: serializable
// Blocks: use
// A semaphore that is destroyed and made anew with more permits.
#include "steps.h"
#include <pthread.h>
#include <semaphore.h>
static sem_t s;
static int x[2];
static void use(int me) {
    sem_wait(&s);
    x[me]++;
    make(me);
    await(1 - me);
    x[me]++;
    sem_post(&s);
}
static void *other(void *u) {
    use(1);
    return u;
}
int main(void) {
    pthread_t t;
    sem_init(&s, 0, 1);
    sem_wait(&s);
    sem_post(&s);
    sem_destroy(&s);
    sem_init(&s, 0, 2);
    pthread_create(&t, 0, other, 0);
    use(0);
    pthread_join(t, 0);
    return x[0] + x[1] != 4;
}
