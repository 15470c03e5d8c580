// Verdict: violation transfer
// Blocks: transfer,change
// Each change is right, and a transfer, which makes two of them, isn't.
#include "steps.h"
#include <pthread.h>
static pthread_mutex_t lock = PTHREAD_MUTEX_INITIALIZER;
static int accounts[2] = {10, 10};
static void change(int account, int much) {
    pthread_mutex_lock(&lock);
    accounts[account] += much;
    pthread_mutex_unlock(&lock);
}
static void transfer(int from, int wait) {
    change(from, -5);
    if (wait) {
        make(0);
        await(1);
    }
    change(1 - from, 5);
}
static void *other(void *unused) {
    await(0);
    transfer(1, 0);
    make(1);
    return unused;
}
int main(void) {
    pthread_t thread;
    pthread_create(&thread, NULL, other, NULL);
    transfer(0, 1);
    pthread_join(thread, NULL);
    return accounts[0] != 10;
}
