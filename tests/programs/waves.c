/* waves [WAVES]: waves of threads (100), one after the other, so that the system uses their ids and stacks again. Each adds to a
 * counter, and the last two of a wave are detached. It says how often was added, and whether ids were used again. */
#include <pthread.h>
#include <semaphore.h>
#include <stdio.h>
#include <stdlib.h>

enum { WAVE = 4 };
static pthread_mutex_t lock = PTHREAD_MUTEX_INITIALIZER;
static sem_t over;
static long count;

static void add(long *by) {
    pthread_mutex_lock(&lock);
    count += *by;
    pthread_mutex_unlock(&lock);
}

static void *work(void *detached) {
    long by = 1;
    add(&by);
    if (detached) sem_post(&over);
    return NULL;
}

/* A thread that starts where another was joined before has its stack, and so its id. */
static int ids_are_used_again(void) {
    pthread_t one, other;
    pthread_create(&one, NULL, work, NULL);
    pthread_join(one, NULL);
    pthread_create(&other, NULL, work, NULL);
    pthread_join(other, NULL);
    return pthread_equal(one, other);
}

static void wave(void) {
    pthread_t threads[WAVE];
    for (long one = 0; one < WAVE; one++) pthread_create(&threads[one], NULL, work, one >= WAVE / 2 ? &over : NULL);
    for (int one = WAVE / 2; one < WAVE; one++) pthread_detach(threads[one]);
    for (int one = 0; one < WAVE / 2; one++) pthread_join(threads[one], NULL);
    for (int one = WAVE / 2; one < WAVE; one++) sem_wait(&over);
}

int main(int words, char **word) {
    int waves = words > 1 ? atoi(word[1]) : 100;
    int again = ids_are_used_again();
    sem_init(&over, 0, 0);
    for (int times = 0; times < waves; times++) wave();
    printf("%ld, ids %s\n", count, again ? "used again" : "all new");
    return 0;
}
