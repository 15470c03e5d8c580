// Verdict: violation set_both
// Blocks: set_both,set_other
// Bit-fields of one word: to set one is to read and write all of them.
#include "steps.h"
#include <pthread.h>
struct {
    unsigned a : 2, b : 2, c : 3;
} bits;
static void set_both(void) {
    bits.a = 1;
    make(0);
    await(1);
    bits.b = 2;
}
static void set_other(void) {
    bits.c = 3;
}
static void *other(void *u) {
    await(0);
    set_other();
    make(1);
    return u;
}
int main(void) {
    pthread_t t;
    pthread_create(&t, 0, other, 0);
    set_both();
    pthread_join(t, 0);
    return 0;
}
