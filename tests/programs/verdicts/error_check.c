// Verdict: serializable
// Blocks: add
// Mutexes that check errors: a second lock is refused, and an unlock by another thread too; neither is an event.
#include <errno.h>
#include <pthread.h>
static pthread_mutex_t m;
static int x, wrong;
static void add(void) {
    pthread_mutex_lock(&m);
    wrong += pthread_mutex_lock(&m) != EDEADLK;
    x++;
    pthread_mutex_unlock(&m);
}
static void *other(void *u) {
    wrong += pthread_mutex_unlock(&m) != EPERM;
    for (int one = 0; one < 50; one++) add();
    return u;
}
int main(void) {
    pthread_t t;
    pthread_mutexattr_t kind;
    pthread_mutexattr_init(&kind);
    pthread_mutexattr_settype(&kind, PTHREAD_MUTEX_ERRORCHECK);
    pthread_mutex_init(&m, &kind);
    pthread_create(&t, 0, other, 0);
    for (int one = 0; one < 50; one++) add();
    pthread_join(t, 0);
    return wrong || x != 100;
}
