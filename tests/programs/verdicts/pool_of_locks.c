// Verdict: serializable
// Blocks: adds
// A pool gives objects of 40 bytes, each of which is a lock. While one thread holds the lock of the second object, the first one is given
// again.
#include "steps.h"
#include <pthread.h>

void AnnotateNewMemory(const char *, int, const volatile void *, long);

struct object {
    pthread_mutex_t lock;
};
static struct object *pool;
static int count;

static struct object *take(int place) {
    AnnotateNewMemory(__FILE__, __LINE__, &pool[place], sizeof *pool);
    pthread_mutex_init(&pool[place].lock, NULL);
    return &pool[place];
}

static void adds(struct object *it) {
    pthread_mutex_lock(&it->lock);
    count++;
    make(0);
    await(1);
    pthread_mutex_unlock(&it->lock);
}

static void *other(void *it) {
    await(0);
    pthread_mutex_lock(&take(0)->lock);
    pthread_mutex_unlock(&pool[0].lock);
    make(1);
    pthread_mutex_lock(&((struct object *)it)->lock);
    count++;
    pthread_mutex_unlock(&((struct object *)it)->lock);
    return it;
}

int main(void) {
    pthread_t thread;
    pool = aligned_alloc(16, 2 * sizeof *pool);
    take(0);
    struct object *it = take(1);
    pthread_create(&thread, NULL, other, it);
    adds(it);
    pthread_join(thread, NULL);
    return count != 2;
}
