// Verdict: serializable
// Blocks: mine,yours
// Fields of a packed structure that lie at odd places, over two words of eight bytes.
#include "steps.h"
#include <pthread.h>
static struct __attribute__((packed)) {
    char c;
    int i;
    short s;
    long l;
    char d;
} * p, it;
static void mine(void) {
    p->i = 1;
    p->l = 2;
    make(0);
    await(1);
    p->i++;
    p->l++;
}
static void yours(void) {
    p->c = 1;
    p->s = 2;
    p->d = 3;
    p->c++;
    p->s++;
    p->d++;
}
static void *run(void *u) {
    await(0);
    yours();
    make(1);
    return u;
}
int main(void) {
    pthread_t t;
    p = &it;
    pthread_create(&t, 0, run, 0);
    mine();
    pthread_join(t, 0);
    return 0;
}
