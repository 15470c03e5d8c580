// Verdict: serializable
// Blocks: use,publish
// A reader goes on with the version that it has, while another thread publishes the next one by its pointer.
#include "steps.h"
#include <pthread.h>
#include <stdatomic.h>
struct Version {
    int number;
    char text[12];
};
static struct Version *_Atomic current;
static void publish(int number) {
    struct Version *next = malloc(sizeof *next);
    next->number = number;
    next->text[number] = (char)number;
    atomic_store_explicit(&current, next, memory_order_release);
}
static int use(int first) {
    struct Version *seen = atomic_load_explicit(&current, memory_order_acquire);
    if (first) {
        make(0);
        await(1);
    }
    return seen->number + seen->text[seen->number];
}
static void *other(void *unused) {
    await(0);
    publish(2);
    make(1);
    return unused;
}
int main(void) {
    pthread_t thread;
    publish(1);
    pthread_create(&thread, NULL, other, NULL);
    int seen = use(1);
    pthread_join(thread, NULL);
    return seen != 2 || use(0) != 4;
}
