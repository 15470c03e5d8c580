/* A harness: it starts two threads and joins them, within functions that would be blocks, in which each adds twice. */
#include <pthread.h>

static pthread_mutex_t m = PTHREAD_MUTEX_INITIALIZER;
static int count, runs;

static void add(void) {
    pthread_mutex_lock(&m);
    count++;
    pthread_mutex_unlock(&m);
}
static void note(void) { runs++; }
static void *work(void *unused) {
    for (int one = 0; one < 2; one++) add();
    return unused;
}
static void run_both(void) {
    pthread_t threads[2];
    note();
    for (int one = 0; one < 2; one++) pthread_create(&threads[one], NULL, work, NULL);
    for (int one = 0; one < 2; one++) pthread_join(threads[one], NULL);
    note();
}
static void test(void) {
    run_both();
    add();
}
int main(void) {
    test();
    test();
    return count == 10 && runs == 4 ? 0 : 1;
}
