/* Two withdrawals, of which the second comes while the first one waits: each run loses an update. They wait for each
 * other by pipes, which no log has. */
#include <pthread.h>
#include <stdio.h>
#include <unistd.h>

static pthread_mutex_t lock = PTHREAD_MUTEX_INITIALIZER;
static long balance = 100;
static int go[2], gone[2];

static void signal_by(int *pipe) {
    if (write(pipe[1], "", 1) != 1) perror("write");
}

static void wait_for(int *pipe) {
    char byte;
    if (read(pipe[0], &byte, 1) != 1) perror("read");
}

static long get(void) {
    pthread_mutex_lock(&lock);
    long now = balance;
    pthread_mutex_unlock(&lock);
    return now;
}

static void set(long now) {
    pthread_mutex_lock(&lock);
    balance = now;
    pthread_mutex_unlock(&lock);
}

static void withdraw_slowly(long amount) {
    long now = get();
    signal_by(go);
    wait_for(gone);
    set(now - amount);
}
static void *first(void *unused) {
    withdraw_slowly(20);
    return unused;
}

static void *second(void *unused) {
    wait_for(go);
    set(get() - 30);
    signal_by(gone);
    return unused;
}

int main(void) {
    pthread_t one, other;
    if (pipe(go) || pipe(gone)) return 2;
    pthread_create(&one, NULL, first, NULL);
    pthread_create(&other, NULL, second, NULL);
    pthread_join(one, NULL);
    pthread_join(other, NULL);
    printf("%ld\n", balance);
    return 0;
}
