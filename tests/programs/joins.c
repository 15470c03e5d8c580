/* Tries to join a thread that still runs, by each call that needn't wait for it, and then joins it: once by pthread_join, once by a
 * try that succeeds, and by each wait that doesn't run out. The threads wait for a byte in a pipe. */
#define _GNU_SOURCE
#include <errno.h>
#include <pthread.h>
#include <stdio.h>
#include <time.h>
#include <unistd.h>

static const struct timespec past = {0, 0}, second = {4000000000, 0};
static int go[2], wrong;

static void expect(int result, int wanted) { wrong += result != wanted; }
static void *waits(void *unused) {
    char byte;
    if (read(go[0], &byte, 1) != 1) perror("read");
    return unused;
}
static pthread_t tried(void) {
    pthread_t helper;
    pthread_create(&helper, NULL, waits, NULL);
    expect(pthread_tryjoin_np(helper, NULL), EBUSY);
    expect(pthread_timedjoin_np(helper, NULL, &past), ETIMEDOUT);
    expect(pthread_clockjoin_np(helper, NULL, CLOCK_MONOTONIC, &past), ETIMEDOUT);
    if (write(go[1], "", 1) != 1) perror("write");
    return helper;
}

int main(void) {
    if (pipe(go)) return 2;
    expect(pthread_join(tried(), NULL), 0);
    pthread_t helper = tried();
    while (pthread_tryjoin_np(helper, NULL) == EBUSY) usleep(100);
    expect(pthread_timedjoin_np(tried(), NULL, &second), 0);
    expect(pthread_clockjoin_np(tried(), NULL, CLOCK_REALTIME, &second), 0);
    return wrong;
}
