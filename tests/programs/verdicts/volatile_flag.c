// Verdict: violation ask
// Blocks: ask
// A block asks and waits for the answer by volatile flags, so another thread's writes are between its reads.
#include <pthread.h>
#include <unistd.h>
static volatile char asked, answered;
static int ask(void) {
    asked = 1;
    while (!answered) usleep(200);
    return 1;
}
static void *answer(void *unused) {
    while (!asked) usleep(200);
    answered = 1;
    return unused;
}
int main(void) {
    pthread_t thread;
    pthread_create(&thread, NULL, answer, NULL);
    int done = ask();
    pthread_join(thread, NULL);
    return done != 1;
}
