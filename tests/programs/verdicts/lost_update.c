// Verdict: violation bump
// Blocks: bump
// Options: -O2
// A count is read and written with no call and no branch between the two, and another thread counts meanwhile: where it writes, a page
// that may not be written yet stops the block.
#include "steps.h"
#include <pthread.h>
#include <signal.h>
#include <sys/mman.h>
static int count, *gate;
UNLOGGED void opens(int signal) {
    (void)signal;
    mprotect(gate, 4096, PROT_READ | PROT_WRITE);
    make(0);
    await(1);
}
static void bump(void) {
    int seen = count;
    *gate = seen;
    count = seen + 1;
}
static void *other(void *unused) {
    await(0);
    count = 10;
    make(1);
    return unused;
}
int main(void) {
    pthread_t thread;
    gate = mmap(NULL, 4096, PROT_READ, MAP_PRIVATE | MAP_ANONYMOUS, -1, 0);
    signal(SIGSEGV, opens);
    pthread_create(&thread, NULL, other, NULL);
    bump();
    pthread_join(thread, NULL);
    return count != 1;
}
