/* A library with a lock that it takes at fork, as its constructor asks the C library to have it done. */
#include <pthread.h>

static pthread_mutex_t lock = PTHREAD_MUTEX_INITIALIZER;
static int value;

static void prepare(void) { pthread_mutex_lock(&lock); }
static void after(void) { pthread_mutex_unlock(&lock); }
__attribute__((constructor)) static void start(void) { pthread_atfork(prepare, after, after); }

void library_work(void) {
    pthread_mutex_lock(&lock);
    value++;
    pthread_mutex_unlock(&lock);
}
