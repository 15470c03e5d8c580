/* A block that writes x, makes step 0 and awaits step 1, and then reads y. */
#include "../steps.h"
#include <omp.h>
#include <pthread.h>
static int x, y, seen, found;
static void changes_and_looks(void) {
    x = 1;
    make(0);
    await(1);
    found = y;
}
static void *other(void *unused) {
    changes_and_looks();
    return unused;
}
