// Verdict: serializable
// Blocks: copy_twice,set
// Beside what is copied twice another thread sets a number, and copies it.
#include "steps.h"
#include <pthread.h>
#include <string.h>
typedef struct {
    int a[7];
    char name[9];
} S;
struct {
    S s;
    int beside;
} it;
S one, two;
int three;
static void copy_twice(void) {
    one = it.s;
    make(0);
    await(1);
    memmove(&two, &it.s, sizeof two);
}
static void set(void) {
    it.beside = 1;
    memcpy(&three, &it.beside, sizeof three);
}
static void *run(void *u) {
    await(0);
    set();
    make(1);
    return u;
}
int main(void) {
    pthread_t t;
    pthread_create(&t, 0, run, 0);
    copy_twice();
    pthread_join(t, 0);
    return 0;
}
