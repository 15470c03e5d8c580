/* Two threads withdraw from one account. Each access of the balance holds the lock m, so there is no data race. But a withdrawal
 * takes the lock twice: two of them can read the same balance, and then one of the two updates is lost.
 *
 *   aerodrome-cc withdraw.c -o withdraw
 *   AERODROME_LOG='|aerodrome --explain' ./withdraw
 *
 * meet() makes the two withdrawals overlap in every run, and its attribute keeps it out of the log. */
#include <pthread.h>
static pthread_mutex_t m = PTHREAD_MUTEX_INITIALIZER;
static long balance = 100;
__attribute__((no_sanitize("thread"))) static void meet(void) {
    static volatile int here;
    __atomic_add_fetch(&here, 1, __ATOMIC_SEQ_CST);
    while (here < 2) {}
}
static void withdraw(long amount) {
    pthread_mutex_lock(&m);   long b = balance;       pthread_mutex_unlock(&m);
    meet();
    pthread_mutex_lock(&m);   balance = b - amount;   pthread_mutex_unlock(&m);
}
static void *run(void *unused) {
    withdraw(30);
    return unused;
}
int main(void) {
    pthread_t other;
    pthread_create(&other, NULL, run, NULL);
    withdraw(20);
    return pthread_join(other, NULL);
}
