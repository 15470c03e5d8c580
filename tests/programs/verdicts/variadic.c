// Verdict: serializable
// Blocks: add_all
// A block with any number of arguments reads them from its stack, in both threads, and adds them under the lock.
#include <pthread.h>
#include <stdarg.h>
static pthread_mutex_t lock = PTHREAD_MUTEX_INITIALIZER;
static double sum;
static void add_all(int count, ...) {
    va_list more;
    va_start(more, count);
    pthread_mutex_lock(&lock);
    for (int one = 0; one < count; one++) sum += one % 2 ? va_arg(more, double) : va_arg(more, int);
    pthread_mutex_unlock(&lock);
    va_end(more);
}
static void *adds(void *unused) {
    for (int one = 0; one < 40; one++) add_all(9, 1, 0.5, 2, 0.25, 3, 0.25, 4, 1.0, one);
    return unused;
}
int main(void) {
    pthread_t thread;
    pthread_create(&thread, NULL, adds, NULL);
    adds(NULL);
    pthread_join(thread, NULL);
    return sum != 2 * (40 * 12 + 39 * 20);
}
