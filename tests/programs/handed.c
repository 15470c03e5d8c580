/* Mutexes that another thread unlocks than the one that has locked them: a gate, and one that a thread gives to the next. The third one
 * is used as it should be. */
#include <pthread.h>

static pthread_mutex_t gate = PTHREAD_MUTEX_INITIALIZER, given = PTHREAD_MUTEX_INITIALIZER, kept = PTHREAD_MUTEX_INITIALIZER;
static int x;

static void *open_gate(void *unused) {
    pthread_mutex_lock(&kept);
    x = 1;
    pthread_mutex_unlock(&kept);
    pthread_mutex_unlock(&gate);
    return unused;
}
static void *take(void *lock) {
    pthread_mutex_lock(lock);
    return lock;
}
static void *give(void *lock) {
    pthread_mutex_unlock(lock);
    return lock;
}
static void run(void *(*what)(void *), void *with) {
    pthread_t thread;
    pthread_create(&thread, NULL, what, with);
    pthread_join(thread, NULL);
}
int main(void) {
    pthread_t thread;
    pthread_mutex_lock(&gate);
    pthread_create(&thread, NULL, open_gate, NULL);
    pthread_mutex_lock(&gate);
    pthread_mutex_unlock(&gate);
    pthread_join(thread, NULL);
    pthread_mutex_lock(&given);
    for (int times = 0; times < 2; times++) {
        run(give, &given);
        run(take, &given);
    }
    pthread_mutex_lock(&kept);
    pthread_mutex_unlock(&kept);
    return x - 1;
}
