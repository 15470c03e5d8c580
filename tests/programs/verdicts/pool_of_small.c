// Verdict: violation changes
// Blocks: changes
// A pool gives objects of twelve bytes. While one thread changes an object, another one takes the next object of the pool, and then changes
// the last number of the first one.
#include "steps.h"
#include <pthread.h>

void AnnotateNewMemory(const char *, int, const volatile void *, long);

struct object {
    int first, second, third;
};
static struct object *pool;
static int taken;

static struct object *take(void) {
    struct object *it = &pool[taken++];
    AnnotateNewMemory(__FILE__, __LINE__, it, sizeof *it);
    return it;
}

static int changes(struct object *it) {
    it->third = 1;
    make(0);
    await(1);
    return it->third;
}

static void *other(void *it) {
    await(0);
    take()->first = 2;
    ((struct object *)it)->third = 3;
    make(1);
    return it;
}

int main(void) {
    pthread_t thread;
    pool = calloc(8, sizeof *pool);
    struct object *it = take();
    pthread_create(&thread, NULL, other, it);
    int found = changes(it);
    pthread_join(thread, NULL);
    return found != 3;
}
