/* A thread is cancelled while it waits for the end of another one, which its maker joins then. */
#include <pthread.h>
#include <signal.h>
#include <stdio.h>

static int x, waits;
static pthread_t worker;
static volatile int runs = 1;

static void *work(void *unused) {
    x = 1;
    while (__atomic_load_n(&runs, __ATOMIC_SEQ_CST)) {}
    return unused;
}
static void *wait_for_it(void *unused) {
    __atomic_store_n(&waits, 1, __ATOMIC_SEQ_CST);
    pthread_join(worker, NULL);
    return unused;
}
int main(void) {
    pthread_t waiter;
    void *result;
    pthread_create(&worker, NULL, work, NULL);
    pthread_create(&waiter, NULL, wait_for_it, NULL);
    while (!__atomic_load_n(&waits, __ATOMIC_SEQ_CST)) {}
    pthread_cancel(waiter);
    pthread_join(waiter, &result);
    __atomic_store_n(&runs, 0, __ATOMIC_SEQ_CST);
    pthread_join(worker, NULL);
    puts(result == PTHREAD_CANCELED ? "cancelled" : "joined");
    return x - 1;
}
