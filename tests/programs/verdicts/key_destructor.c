// Verdict: violation flush
// Blocks: flush
// What a thread counted is added by the destructor of a key, after the thread's function has returned, in two steps.
#include "steps.h"
#include <pthread.h>
static pthread_key_t key;
static pthread_mutex_t lock = PTHREAD_MUTEX_INITIALIZER;
static int total;
static int get(void) {
    pthread_mutex_lock(&lock);
    int now = total;
    pthread_mutex_unlock(&lock);
    return now;
}
static void set(int now) {
    pthread_mutex_lock(&lock);
    total = now;
    pthread_mutex_unlock(&lock);
}
static void flush(void *counted) {
    int before = get();
    make(0);
    await(1);
    set(before + *(int *)counted);
    free(counted);
}
static void *count(void *unused) {
    int *counted = malloc(sizeof *counted);
    *counted = 5;
    pthread_setspecific(key, counted);
    return unused;
}
int main(void) {
    pthread_t thread;
    pthread_key_create(&key, flush);
    pthread_create(&thread, NULL, count, NULL);
    await(0);
    set(get() + 1);
    make(1);
    pthread_join(thread, NULL);
    return total != 5;
}
