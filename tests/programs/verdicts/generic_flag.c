// Verdict: violation claim
// Blocks: claim
// atomic_flag as a lock for each half of a claim: the other thread claims between the two.
#include "steps.h"
#include <pthread.h>
#include <stdatomic.h>
static atomic_flag lock = ATOMIC_FLAG_INIT;
static int owner;
static int read_owner(void) {
    while (atomic_flag_test_and_set(&lock)) {}
    int seen = owner;
    atomic_flag_clear(&lock);
    return seen;
}
static void write_owner(int now) {
    while (atomic_flag_test_and_set(&lock)) {}
    owner = now;
    atomic_flag_clear(&lock);
}
static void claim(int who) {
    if (read_owner()) return;
    if (who == 1) {
        make(0);
        await(1);
    }
    write_owner(who);
}
static void *other(void *unused) {
    await(0);
    claim(2);
    make(1);
    return unused;
}
int main(void) {
    pthread_t thread;
    pthread_create(&thread, NULL, other, NULL);
    claim(1);
    pthread_join(thread, NULL);
    return owner != 1;
}
