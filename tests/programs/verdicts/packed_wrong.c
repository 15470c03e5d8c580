// Verdict: violation mine
// Blocks: mine,yours
// The other one writes a byte of the field at the odd place.
#include "steps.h"
#include <pthread.h>
static struct __attribute__((packed)) {
    char c;
    int i;
    short s;
    long l;
    char d;
} * p, it;
static void mine(void) {
    long v = p->l;
    make(0);
    await(1);
    p->l = v + 1;
}
static void yours(void) {
    ((char *)&p->l)[6] = 1;
}
static void *run(void *u) {
    await(0);
    yours();
    make(1);
    return u;
}
int main(void) {
    pthread_t t;
    p = &it;
    pthread_create(&t, 0, run, 0);
    mine();
    pthread_join(t, 0);
    return 0;
}
