/* Steps by pipes, which no log has: a thread goes on once another one has made the step. So each run has the same order. */
#include <stdlib.h>
#include <unistd.h>

#define UNLOGGED __attribute__((no_sanitize("thread"), unused)) static
enum { STEPS = 3 };
static int step_pipes[STEPS][2];

UNLOGGED void open_steps(void) __attribute__((constructor(200)));
UNLOGGED void open_steps(void) {
    for (int one = 0; one < STEPS; one++)
        if (pipe(step_pipes[one])) abort();
}
UNLOGGED void make(int step) {
    if (write(step_pipes[step][1], "", 1) != 1) abort();
}
UNLOGGED void await(int step) {
    char byte;
    if (read(step_pipes[step][0], &byte, 1) != 1) abort();
}
