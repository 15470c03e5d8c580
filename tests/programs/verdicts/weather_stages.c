// Verdict: serializable
// Measurements go through a pipeline whose stages share a read-write lock. A forecast takes the lock twice to read, and a report reads
// between the two. The next measurement is published after the forecast.
#include "steps.h"
#include <pthread.h>
struct measurement {
    int celsius, hectopascal;
};
static pthread_rwlock_t station = PTHREAD_RWLOCK_INITIALIZER;
static struct measurement latest;
static int reported, published;

static void publish(int celsius, int hectopascal) {
    pthread_rwlock_wrlock(&station);
    latest.celsius = celsius;
    latest.hectopascal = hectopascal;
    published++;
    pthread_rwlock_unlock(&station);
}
static int pressure(void) {
    pthread_rwlock_rdlock(&station);
    int now = latest.hectopascal;
    pthread_rwlock_unlock(&station);
    return now;
}
static int warmth(void) {
    if (pthread_rwlock_tryrdlock(&station)) abort();
    int now = latest.celsius;
    pthread_rwlock_unlock(&station);
    return now;
}
static int forecast(void) {
    int cold = warmth() < 5;
    make(0);
    await(1);
    return cold && pressure() < 1000;
}
static void report(void) {
    pthread_rwlock_rdlock(&station);
    reported = latest.celsius * 10000 + latest.hectopascal;
    pthread_rwlock_unlock(&station);
}
static void *reporter(void *unused) {
    await(0);
    report();
    make(1);
    await(2);
    publish(20, 1020);
    return unused;
}
int main(void) {
    pthread_t thread;
    publish(3, 990);
    pthread_create(&thread, NULL, reporter, NULL);
    int snow = forecast();
    make(2);
    pthread_join(thread, NULL);
    return !(snow && reported == 30990 && published == 2 && warmth() == 20);
}
