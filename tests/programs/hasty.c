/* Four threads check that there is enough and then take it, each in twenty short blocks, and so seldom at the same time. */
#include <pthread.h>

static pthread_mutex_t m = PTHREAD_MUTEX_INITIALIZER;
static long money = 1000;

static long balance(void) {
    pthread_mutex_lock(&m);
    long found = money;
    pthread_mutex_unlock(&m);
    return found;
}
static void take(long amount) {
    if (balance() < amount) return;
    pthread_mutex_lock(&m);
    money -= amount;
    pthread_mutex_unlock(&m);
}
static void *work(void *unused) {
    for (int one = 0; one < 20; one++) take(1);
    return unused;
}
int main(void) {
    pthread_t threads[4];
    for (int one = 0; one < 4; one++) pthread_create(&threads[one], NULL, work, NULL);
    for (int one = 0; one < 4; one++) pthread_join(threads[one], NULL);
    return money == 920 ? 0 : 1;
}
