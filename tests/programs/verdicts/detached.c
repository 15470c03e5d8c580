// Verdict: serializable
// Blocks: finish,is_finished
// Threads that nobody joins say that they have finished, under a lock.
#include <pthread.h>
#include <sched.h>
static pthread_mutex_t lock = PTHREAD_MUTEX_INITIALIZER;
static int left = 4;
static void finish(void) {
    pthread_mutex_lock(&lock);
    left--;
    pthread_mutex_unlock(&lock);
}
static int is_finished(void) {
    pthread_mutex_lock(&lock);
    int none = left == 0;
    pthread_mutex_unlock(&lock);
    return none;
}
/* (of these main learns that the block of `finish` has ended) */
static int gone;
__attribute__((no_sanitize("thread"))) static void leave(void) { __atomic_fetch_add(&gone, 1, __ATOMIC_SEQ_CST); }
__attribute__((no_sanitize("thread"))) static int all_left(void) { return __atomic_load_n(&gone, __ATOMIC_SEQ_CST) == 4; }
static void *work(void *by_itself) {
    if (by_itself) pthread_detach(pthread_self());
    finish();
    leave();
    return NULL;
}
int main(void) {
    pthread_attr_t detached;
    pthread_attr_init(&detached);
    pthread_attr_setdetachstate(&detached, PTHREAD_CREATE_DETACHED);
    for (int one = 0; one < 4; one++) {
        pthread_t thread;
        if (pthread_create(&thread, one % 2 ? &detached : NULL, work, one % 2 ? NULL : &left)) return 2;
    }
    while (!is_finished()) sched_yield();
    while (!all_left()) sched_yield();
    return 0;
}
