/* A queue of one place, with a condition variable for those that put in and one for those that take out.
 *
 *   queue many [EACH]   two threads put EACH numbers in (200), and two take them out
 *   queue one           one thread waits for the one number that another puts in. It waits in each run, as it holds the lock
 *                       first, of which the other one hears by a pipe */
#include <pthread.h>
#include <stdio.h>
#include <stdlib.h>
#include <string.h>
#include <unistd.h>

static long each = 200;
static pthread_mutex_t lock = PTHREAD_MUTEX_INITIALIZER;
static pthread_cond_t has_room = PTHREAD_COND_INITIALIZER, has_one = PTHREAD_COND_INITIALIZER;
static long place, sum;
static int is_full, holds[2];

static void put(long number) {
    pthread_mutex_lock(&lock);
    while (is_full) pthread_cond_wait(&has_room, &lock);
    place = number;
    is_full = 1;
    pthread_cond_signal(&has_one);
    pthread_mutex_unlock(&lock);
}

static void take(void) {
    pthread_mutex_lock(&lock);
    while (!is_full) pthread_cond_wait(&has_one, &lock);
    sum += place;
    is_full = 0;
    pthread_cond_signal(&has_room);
    pthread_mutex_unlock(&lock);
}

static void *puts_in(void *unused) {
    for (long number = 1; number <= each; number++) put(number);
    return unused;
}
static void *takes_out(void *unused) {
    for (long times = 0; times < each; times++) take();
    return unused;
}

static void wait_and_take(void) {
    pthread_mutex_lock(&lock);
    if (write(holds[1], "", 1) != 1) perror("write");
    while (!is_full) pthread_cond_wait(&has_one, &lock);
    sum += place;
    pthread_mutex_unlock(&lock);
}
static void *puts_one(void *unused) {
    char byte;
    if (read(holds[0], &byte, 1) != 1) perror("read");
    put(7);
    return unused;
}
static void *takes_one(void *unused) {
    wait_and_take();
    return unused;
}

int main(int words, char **word) {
    void *(*runs[])(void *) = {puts_in, takes_out, puts_in, takes_out, puts_one, takes_one};
    pthread_t threads[6];
    int many = words > 1 && !strcmp(word[1], "many"), from = many ? 0 : 4, to = many ? 4 : 6;
    if (words > 2) each = atol(word[2]);
    if (pipe(holds)) return 2;
    for (int one = from; one < to; one++) pthread_create(&threads[one], NULL, runs[one], NULL);
    for (int one = from; one < to; one++) pthread_join(threads[one], NULL);
    printf("%ld\n", sum);
    return 0;
}
