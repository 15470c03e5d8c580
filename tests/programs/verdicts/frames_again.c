// Verdict: serializable
// Blocks: wake,second
// A waiter lies on the stack of a thread that waits in one function, and another one, in the next function, at the same address. The second
// function comes before what wakes the first waiter ends, and after what it does first; only by the address it would be the other way round.
#include "steps.h"
#include <pthread.h>
struct waiter {
    int is_woken, turns;
};
static pthread_mutex_t lock = PTHREAD_MUTEX_INITIALIZER;
static struct waiter *waiting;
static int number;
static void begin(struct waiter *it) {
    it->is_woken = it->turns = 0;
    __asm__ volatile("" : : "r"(it) : "memory");
}
static void first(void) {
    struct waiter here;
    begin(&here);
    waiting = &here;
    make(0);
    await(1);
}
static void second(void) {
    struct waiter here;
    begin(&here);
    pthread_mutex_lock(&lock);
    number = 1;
    pthread_mutex_unlock(&lock);
}
static int wake(void) {
    waiting->is_woken = 1;
    make(1);
    await(2);
    pthread_mutex_lock(&lock);
    int seen = number;
    pthread_mutex_unlock(&lock);
    return seen;
}
static void *waits(void *unused) {
    first();
    second();
    make(2);
    return unused;
}
int main(void) {
    pthread_t thread;
    pthread_create(&thread, NULL, waits, NULL);
    await(0);
    int seen = wake();
    pthread_join(thread, NULL);
    return seen != 1;
}
