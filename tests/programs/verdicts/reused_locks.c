// Verdict: serializable
// Blocks: use
// Each account has its lock, and the next account gets the memory of the one before.
#include <pthread.h>
#include <stdlib.h>
struct Account {
    pthread_mutex_t lock;
    int balance;
};
static void use(struct Account *account) {
    pthread_mutex_lock(&account->lock);
    account->balance++;
    pthread_mutex_unlock(&account->lock);
}
static void *other(void *account) {
    for (int one = 0; one < 10; one++) use(account);
    return NULL;
}
int main(void) {
    int wrong = 0;
    for (int round = 0; round < 20; round++) {
        struct Account *account = calloc(1, sizeof *account);
        pthread_mutex_init(&account->lock, NULL);
        pthread_t thread;
        pthread_create(&thread, NULL, other, account);
        other(account);
        pthread_join(thread, NULL);
        wrong += account->balance != 20;
        pthread_mutex_destroy(&account->lock);
        free(account);
    }
    return wrong;
}
