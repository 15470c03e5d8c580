/* The withdrawals of withdraw.c, mended: each holds the lock from its read to its write. So one of the two has to wait, and every
 * log of this program is serializable.
 *
 *   aerodrome-cc one_lock.c -o one_lock
 *   AERODROME_LOG='|aerodrome' ./one_lock */
#include <pthread.h>
static pthread_mutex_t m = PTHREAD_MUTEX_INITIALIZER;
static long balance = 100;
static void withdraw(long amount) {
    pthread_mutex_lock(&m);
    long b = balance;
    balance = b - amount;
    pthread_mutex_unlock(&m);
}
static void *run(void *unused) {
    withdraw(30);
    return unused;
}
int main(void) {
    pthread_t other;
    pthread_create(&other, NULL, run, NULL);
    withdraw(20);
    return pthread_join(other, NULL);
}
