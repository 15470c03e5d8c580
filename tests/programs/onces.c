/* onces: two threads ask for the same 20000 things, in the same order. Whoever asks for one first prepares it. */
#include <pthread.h>
#include <stdio.h>

enum { THINGS = 20000 };
static pthread_once_t once[THINGS];
static int prepared;

static void prepare(void) { prepared++; }
static void *asks(void *unused) {
    for (int one = 0; one < THINGS; one++) pthread_once(&once[one], prepare);
    return unused;
}

int main(void) {
    pthread_t other;
    for (int one = 0; one < THINGS; one++) once[one] = (pthread_once_t)PTHREAD_ONCE_INIT;
    pthread_create(&other, NULL, asks, NULL);
    asks(NULL);
    pthread_join(other, NULL);
    printf("%d\n", prepared);
    return 0;
}
