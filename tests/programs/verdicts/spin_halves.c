// Verdict: violation move
// Blocks: move
// A spin lock for each half of a move: the other thread moves between the two.
#include "steps.h"
#include <pthread.h>
static pthread_spinlock_t lock;
static int left = 10, right;
static void move(int first) {
    pthread_spin_lock(&lock);
    int taken = left;
    pthread_spin_unlock(&lock);
    if (first) {
        make(0);
        await(1);
    }
    while (pthread_spin_trylock(&lock)) {}
    left = 0;
    right += taken;
    pthread_spin_unlock(&lock);
}
static void *other(void *unused) {
    await(0);
    move(0);
    make(1);
    return unused;
}
int main(void) {
    pthread_t thread;
    pthread_spin_init(&lock, PTHREAD_PROCESS_PRIVATE);
    pthread_create(&thread, NULL, other, NULL);
    move(1);
    pthread_join(thread, NULL);
    return right != 20;
}
