// Verdict: violation works
// Blocks: works
// The stack of a signal handler lies in the frame of a function, above those that the handler interrupts: their block goes on.
#include "steps.h"
#include <pthread.h>
#include <signal.h>
static volatile int x, handled;
static void notes(int number) {
    handled += number;
}
static void handles(int number) {
    notes(number);
    handled++;
}
static int works(void) {
    int before = x;
    raise(SIGUSR1);
    make(0);
    await(1);
    return before + x;
}
static void *run(void *u) {
    await(0);
    x = 1;
    make(1);
    return u;
}
static int whole(void) {
    char room[1 << 16];
    stack_t stack = {.ss_sp = room, .ss_size = sizeof room};
    struct sigaction action = {.sa_handler = handles, .sa_flags = SA_ONSTACK};
    sigaltstack(&stack, 0);
    sigaction(SIGUSR1, &action, 0);
    return works();
}
int main(void) {
    pthread_t t;
    pthread_create(&t, 0, run, 0);
    int sum = whole();
    pthread_join(t, 0);
    return sum != 1 || handled != SIGUSR1 + 1;
}
