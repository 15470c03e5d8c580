// Verdict: violation turn
// Blocks: turn
// A complex number is turned by a right angle, with another thread's turn between the read and the write.
#include "steps.h"
#include <complex.h>
#include <pthread.h>
static double _Complex point = 1;
static void turn(int first) {
    double _Complex now = point;
    if (first) {
        make(0);
        await(1);
    }
    point = now * I;
}
static void *other(void *unused) {
    await(0);
    turn(0);
    make(1);
    return unused;
}
int main(void) {
    pthread_t thread;
    pthread_create(&thread, NULL, other, NULL);
    turn(1);
    pthread_join(thread, NULL);
    return creal(point) != 0 || cimag(point) != 1;
}
