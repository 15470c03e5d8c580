// Verdict: serializable
// Blocks: works,handles,other
// A signal handler has a stack of its own. It leaves its block and the one that it has interrupted by the jump that the compiler makes.
#include "steps.h"
#include <pthread.h>
#include <signal.h>
static void *back[5];
static volatile int x;
static void handles(int number) {
    x += number != SIGUSR1;
    __builtin_longjmp(back, 1);
}
static void works(void) {
    x++;
    raise(SIGUSR1);
}
static void other(void) {
    x++;
}
static void *run(void *u) {
    await(0);
    other();
    make(1);
    return u;
}
static void whole(void) {
    if (!__builtin_setjmp(back)) works();
    make(0);
    await(1);
    x++;
}
int main(void) {
    pthread_t t;
    stack_t stack = {.ss_sp = malloc(1 << 16), .ss_size = 1 << 16};
    struct sigaction action = {.sa_handler = handles, .sa_flags = SA_ONSTACK};
    sigaltstack(&stack, 0);
    sigaction(SIGUSR1, &action, 0);
    pthread_create(&t, 0, run, 0);
    whole();
    pthread_join(t, 0);
    return 0;
}
