// Verdict: serializable
// Blocks: add
// A lock that isn't free is tried, and waited for until a time that is over, before it is taken.
#define _GNU_SOURCE
#include "steps.h"
#include <errno.h>
#include <pthread.h>
#include <time.h>
static pthread_mutex_t lock = PTHREAD_MUTEX_INITIALIZER;
static int sum;
static int add(void) {
    struct timespec past = {1, 0}, future;
    int tried = pthread_mutex_trylock(&lock) == EBUSY;
    tried += pthread_mutex_timedlock(&lock, &past) == ETIMEDOUT;
    tried += pthread_mutex_clocklock(&lock, CLOCK_MONOTONIC, &past) == ETIMEDOUT;
    make(1);
    clock_gettime(CLOCK_REALTIME, &future);
    future.tv_sec += 1000;
    if (pthread_mutex_timedlock(&lock, &future)) return 0;
    sum += 2;
    pthread_mutex_unlock(&lock);
    return tried == 3;
}
static void *other(void *unused) {
    pthread_mutex_lock(&lock);
    make(0);
    await(1);
    sum += 1;
    pthread_mutex_unlock(&lock);
    return unused;
}
int main(void) {
    pthread_t thread;
    pthread_create(&thread, NULL, other, NULL);
    await(0);
    int tried = add();
    pthread_join(thread, NULL);
    return !tried || sum != 3;
}
