// Verdict: serializable
// Blocks: put,take
// A buffer with two places, by semaphores: two threads have places at the same time, and the later one to get its place fills it first.
#include "steps.h"
#include <pthread.h>
#include <semaphore.h>
static sem_t places, items;
static pthread_mutex_t m = PTHREAD_MUTEX_INITIALIZER;
static int buffer[2], count;
static void put(int value, int is_first) {
    sem_wait(&places);
    if (is_first) make(0), await(1);
    pthread_mutex_lock(&m);
    buffer[count++] = value;
    pthread_mutex_unlock(&m);
    sem_post(&items);
}
static int take(void) {
    sem_wait(&items);
    pthread_mutex_lock(&m);
    int value = buffer[--count];
    pthread_mutex_unlock(&m);
    sem_post(&places);
    return value;
}
static void *other(void *u) {
    await(0);
    put(2, 0);
    make(1);
    return u;
}
int main(void) {
    pthread_t t;
    sem_init(&places, 0, 2);
    sem_init(&items, 0, 0);
    pthread_create(&t, 0, other, 0);
    put(1, 1);
    pthread_join(t, 0);
    return take() + take() != 3;
}
