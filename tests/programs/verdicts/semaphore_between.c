// Verdict: violation check
// Blocks: check,change
// A block posts and waits for the answer: what it reads behind that another thread has written in between.
#include <pthread.h>
#include <semaphore.h>
static sem_t asked, answered;
static int x;
static int check(void) {
    int before = x;
    sem_post(&asked);
    sem_wait(&answered);
    return before == x;
}
static void change(void) {
    sem_wait(&asked);
    x++;
    sem_post(&answered);
}
static void *other(void *u) {
    change();
    return u;
}
int main(void) {
    pthread_t t;
    sem_init(&asked, 0, 0);
    sem_init(&answered, 0, 0);
    pthread_create(&t, 0, other, 0);
    int same = check();
    pthread_join(t, 0);
    return same;
}
