// Verdict: serializable
// Blocks: work
// main's thread ends by pthread_exit, and another one goes on with what main had locked before.
#include <pthread.h>
#include <stdlib.h>
static pthread_mutex_t lock = PTHREAD_MUTEX_INITIALIZER;
static pthread_t first;
static int sum;
static void work(int more) {
    pthread_mutex_lock(&lock);
    sum += more;
    pthread_mutex_unlock(&lock);
}
static void *goes_on(void *unused) {
    work(1);
    pthread_join(first, NULL);
    work(2);
    if (sum != 6) abort();
    exit(0);
    return unused;
}
int main(void) {
    pthread_t thread;
    first = pthread_self();
    pthread_create(&thread, NULL, goes_on, NULL);
    work(3);
    pthread_exit(NULL);
}
