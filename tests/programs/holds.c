/* Each of two threads, one after the other, takes 1,000 locks and then gives them back. */
#include <pthread.h>
#include <stdio.h>

enum { LOCKS = 1000 };
static pthread_mutex_t locks[LOCKS];
static int value;

static void take_all(void) {
    for (int one = 0; one < LOCKS; one++) pthread_mutex_lock(&locks[one]);
    value++;
    for (int one = LOCKS; one-- > 0;) pthread_mutex_unlock(&locks[one]);
}

static void *run(void *unused) {
    take_all();
    return unused;
}

int main(void) {
    pthread_t thread;
    for (int one = 0; one < LOCKS; one++) pthread_mutex_init(&locks[one], NULL);
    for (int times = 0; times < 2; times++) {
        pthread_create(&thread, NULL, run, NULL);
        pthread_join(thread, NULL);
    }
    printf("%d\n", value);
    return 0;
}
