// Verdict: violation copy_twice
// Blocks: copy_twice,set
// A structure that is copied twice, each time under the lock, and one field that another thread sets between.
#include "steps.h"
#include <pthread.h>
#include <string.h>
static pthread_mutex_t m = PTHREAD_MUTEX_INITIALIZER;
typedef struct {
    int a[7];
    char name[9];
} S;
static S s, one, two;
static void copy(S *to) {
    pthread_mutex_lock(&m);
    memcpy(to, &s, sizeof s);
    pthread_mutex_unlock(&m);
}
static void copy_twice(void) {
    copy(&one);
    make(0);
    await(1);
    two = one;
    copy(&two);
}
static void set(void) {
    pthread_mutex_lock(&m);
    s.name[8] = 1;
    pthread_mutex_unlock(&m);
}
static void *run(void *u) {
    await(0);
    set();
    make(1);
    return u;
}
int main(void) {
    pthread_t t;
    pthread_create(&t, 0, run, 0);
    copy_twice();
    pthread_join(t, 0);
    return 0;
}
