// Verdict: violation extend
// Blocks: extend
// An array grows by realloc under the lock, and its length is written under the next lock.
#include "steps.h"
#include <pthread.h>
static pthread_mutex_t lock = PTHREAD_MUTEX_INITIALIZER;
static int *all;
static size_t length;
static void extend(int value) {
    pthread_mutex_lock(&lock);
    size_t place = length;
    all = realloc(all, (place + 1000) * sizeof *all);
    all[place] = value;
    pthread_mutex_unlock(&lock);
    if (value == 1) {
        make(0);
        await(1);
    }
    pthread_mutex_lock(&lock);
    length = place + 1;
    pthread_mutex_unlock(&lock);
}
static void *other(void *unused) {
    await(0);
    extend(2);
    make(1);
    return unused;
}
int main(void) {
    pthread_t thread;
    pthread_create(&thread, NULL, other, NULL);
    extend(1);
    pthread_join(thread, NULL);
    return length != 1 || all[0] != 2;
}
