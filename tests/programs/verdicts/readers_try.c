// Verdict: serializable
// Blocks: peek,poke
// Two readers hold the lock at once, neither can write then, and each tries.
#include "steps.h"
#include <errno.h>
#include <pthread.h>
#include <time.h>
static pthread_rwlock_t lock = PTHREAD_RWLOCK_INITIALIZER;
static int value = 7;
static int peek(int first) {
    struct timespec past = {1, 0};
    int seen = pthread_rwlock_tryrdlock(&lock) ? 0 : value;
    make(first);
    await(1 - first);
    int busy = pthread_rwlock_trywrlock(&lock) == EBUSY;
    if (first) busy = busy && pthread_rwlock_timedwrlock(&lock, &past) != 0;
    seen += value;
    pthread_rwlock_unlock(&lock);
    return busy ? seen : 0;
}
static void poke(void) {
    pthread_rwlock_wrlock(&lock);
    value++;
    pthread_rwlock_unlock(&lock);
}
static void *other(void *unused) {
    int seen = peek(0);
    poke();
    return seen == 14 ? unused : &value;
}
int main(void) {
    pthread_t thread;
    void *wrong;
    pthread_create(&thread, NULL, other, NULL);
    int seen = peek(1);
    poke();
    pthread_join(thread, &wrong);
    return wrong || seen != 14 || value != 9;
}
