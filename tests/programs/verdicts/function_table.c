// Verdict: violation withdraw
// Blocks: deposit,withdraw
// Blocks are called by pointers from a table, and only one of them is wrong.
#include "steps.h"
#include <pthread.h>
static pthread_mutex_t lock = PTHREAD_MUTEX_INITIALIZER;
static int balance = 10;
static void deposit(int much) {
    pthread_mutex_lock(&lock);
    balance += much;
    pthread_mutex_unlock(&lock);
}
static void withdraw(int much) {
    pthread_mutex_lock(&lock);
    int now = balance;
    pthread_mutex_unlock(&lock);
    if (now < much) return;
    make(0);
    await(1);
    pthread_mutex_lock(&lock);
    balance -= much;
    pthread_mutex_unlock(&lock);
}
static void (*volatile orders[])(int) = {deposit, withdraw};
static void *other(void *unused) {
    await(0);
    orders[0](-10);
    make(1);
    return unused;
}
int main(void) {
    pthread_t thread;
    pthread_create(&thread, NULL, other, NULL);
    orders[0](5);
    orders[1](10);
    pthread_join(thread, NULL);
    return balance != -5;
}
