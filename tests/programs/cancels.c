/* Threads that add for ever, and are cancelled asynchronously. */
#include <pthread.h>
#include <stdio.h>
#include <unistd.h>

static volatile long sum;

void add(void) { sum = sum + 1; }

static void *add_for_ever(void *unused) {
    int before;
    pthread_setcanceltype(PTHREAD_CANCEL_ASYNCHRONOUS, NULL);
    pthread_setcanceltype(PTHREAD_CANCEL_ASYNCHRONOUS, &before);
    if (before != PTHREAD_CANCEL_ASYNCHRONOUS) puts("it isn't as it was set");
    for (;;) add();
    return unused;
}

int main(void) {
    int cancelled = 0;
    for (int round = 0; round < 30; round++) {
        pthread_t thread;
        void *end;
        pthread_create(&thread, NULL, add_for_ever, NULL);
        usleep(1000);
        pthread_cancel(thread);
        pthread_join(thread, &end);
        cancelled += end == PTHREAD_CANCELED;
    }
    printf("%d cancelled\n", cancelled);
    return 0;
}
