/* Forks 100 times while another thread works with a library that takes its own lock at fork. */
#include <pthread.h>
#include <stdio.h>
#include <sys/wait.h>
#include <unistd.h>

void library_work(void);
static volatile int runs = 1;

static void *work(void *unused) {
    while (runs) library_work();
    return unused;
}
int main(void) {
    pthread_t thread;
    pthread_create(&thread, NULL, work, NULL);
    for (int times = 0; times < 100; times++) {
        pid_t child = fork();
        if (!child) _exit(0);
        waitpid(child, NULL, 0);
    }
    runs = 0;
    pthread_join(thread, NULL);
    puts("forked 100 times");
    return 0;
}
