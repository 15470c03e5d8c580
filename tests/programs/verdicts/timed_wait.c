// Verdict: violation await_one
// Verdict with AERODROME_SPLIT=waits: serializable
// Blocks: await_one
// A block waits for at most some milliseconds at a time, until another thread has counted.
#include "steps.h"
#include <pthread.h>
#include <time.h>
static pthread_mutex_t lock = PTHREAD_MUTEX_INITIALIZER;
static pthread_cond_t never = PTHREAD_COND_INITIALIZER;
static int count;
static int await_one(void) {
    pthread_mutex_lock(&lock);
    make(0);
    while (!count) {
        struct timespec until;
        clock_gettime(CLOCK_REALTIME, &until);
        until.tv_nsec += 2000000;
        if (until.tv_nsec >= 1000000000) until.tv_sec++, until.tv_nsec -= 1000000000;
        pthread_cond_timedwait(&never, &lock, &until);
    }
    int seen = count;
    pthread_mutex_unlock(&lock);
    return seen;
}
static void *other(void *unused) {
    await(0);
    pthread_mutex_lock(&lock);
    count = 1;
    pthread_mutex_unlock(&lock);
    return unused;
}
int main(void) {
    pthread_t thread;
    pthread_create(&thread, NULL, other, NULL);
    int seen = await_one();
    pthread_join(thread, NULL);
    return seen != 1;
}
