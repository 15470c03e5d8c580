// Verdict: serializable
// A walk light is a state machine. While it advances, another thread presses the button by a signal, so the handler runs in the midst of
// the block. It is the same thread's, and so it is a part of the block. The requests were counted before that.
#include "steps.h"
#include <pthread.h>
#include <signal.h>
enum light { RED, YELLOW, GREEN };
static volatile sig_atomic_t light = RED, pressed;
static int requests, turns;
static pthread_t walker;

static void press_button(int number) {
    (void)number;
    pressed = 1;
    if (light == RED) light = YELLOW;
}
static void count_request(void) {
    requests++;
}
static int advance(void) {
    int before = light;
    turns++;
    make(0);
    await(1);
    if (pressed && light == YELLOW) light = GREEN;
    pressed = 0;
    return before != light && requests == 1;
}
static void *passer_by(void *unused) {
    await(0);
    count_request();
    if (pthread_kill(walker, SIGUSR1)) abort();
    make(1);
    return unused;
}
int main(void) {
    pthread_t thread;
    struct sigaction action = {.sa_handler = press_button, .sa_flags = SA_RESTART};
    sigaction(SIGUSR1, &action, NULL);
    walker = pthread_self();
    pthread_create(&thread, NULL, passer_by, NULL);
    int changed = advance();
    pthread_join(thread, NULL);
    return !(changed && light == GREEN && turns == 1);
}
