// Verdict: violation scale
// Blocks: scale
// Four numbers of a machine's vector are read, scaled and written, after another thread has scaled them.
#include "steps.h"
#include <pthread.h>
typedef float Four __attribute__((vector_size(16)));
static Four all = {1, 2, 3, 4};
static void scale(int first) {
    Four now = all;
    if (first) {
        make(0);
        await(1);
    }
    all = now * 2;
}
static void *other(void *unused) {
    await(0);
    scale(0);
    make(1);
    return unused;
}
int main(void) {
    pthread_t thread;
    pthread_create(&thread, NULL, other, NULL);
    scale(1);
    pthread_join(thread, NULL);
    return all[0] != 2 || all[3] != 8;
}
