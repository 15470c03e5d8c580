// Verdict: violation twice
// Blocks: twice
// Another thread changes what lies on the stack of the first one, in a frame and behind it (alloca), between two accesses of a block,
// which calls functions meanwhile. These are left, and what is on the stack above stays.
#include "steps.h"
#include <alloca.h>
#include <pthread.h>
static int *in_frame, *behind;
static int deep(int left) { return left ? deep(left - 1) + *in_frame * 0 : *behind * 0; }
static void *changes(void *unused) {
    await(0);
    ++*in_frame;
    ++*behind;
    make(1);
    return unused;
}
static int twice(void) {
    int seen = *behind;
    deep(3);
    make(0);
    await(1);
    deep(5);
    return *behind - seen;
}
static int run(int length) {
    int local = 1, *more = alloca((size_t)length * sizeof *more);
    pthread_t thread;
    in_frame = &local;
    behind = more;
    *behind = 1;
    pthread_create(&thread, NULL, changes, NULL);
    int apart = twice();
    pthread_join(thread, NULL);
    return apart + local - 3;
}
int main(void) { return run(40); }
