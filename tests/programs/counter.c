/* Two threads add to a counter, each access under the lock.
 *
 *   counter apart      one thread gets the counter, the other adds to it meanwhile, and then the first one sets it
 *   counter together   each thread gets and sets it under one lock, one after the other
 *
 * They wait for each other by pipes, which no log has, so each run has the same order. */
#include <pthread.h>
#include <stdio.h>
#include <string.h>
#include <unistd.h>

static pthread_mutex_t lock = PTHREAD_MUTEX_INITIALIZER;
static long count;
static int apart, go[2], gone[2];

static long get(void) {
    pthread_mutex_lock(&lock);
    long now = count;
    pthread_mutex_unlock(&lock);
    return now;
}

static void set(long now) {
    pthread_mutex_lock(&lock);
    count = now;
    pthread_mutex_unlock(&lock);
}

static void signal_by(int *pipe) {
    if (write(pipe[1], "", 1) != 1) perror("write");
}

static void wait_for(int *pipe) {
    char byte;
    if (read(pipe[0], &byte, 1) != 1) perror("read");
}

static void add_apart(int first) {
    long now = get();
    if (first) {
        signal_by(go);
        wait_for(gone);
    }
    set(now + 1);
}

static void add_together(void) {
    pthread_mutex_lock(&lock);
    count = count + 1;
    pthread_mutex_unlock(&lock);
}

static void *first(void *unused) {
    if (apart) add_apart(1);
    else {
        add_together();
        signal_by(go);
    }
    return unused;
}

static void *second(void *unused) {
    wait_for(go);
    if (apart) add_apart(0);
    else add_together();
    signal_by(gone);
    return unused;
}

int main(int words, char **word) {
    pthread_t one, other;
    apart = words > 1 && !strcmp(word[1], "apart");
    if (pipe(go) || pipe(gone)) return 2;
    pthread_create(&one, NULL, first, NULL);
    pthread_create(&other, NULL, second, NULL);
    pthread_join(one, NULL);
    pthread_join(other, NULL);
    printf("%ld\n", count);
    return 3;
}
