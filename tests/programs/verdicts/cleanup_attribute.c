// Verdict: serializable
// Blocks: add
// A lock that a variable's cleanup gives back, on each of two ways out of the block.
#include <pthread.h>
static pthread_mutex_t lock = PTHREAD_MUTEX_INITIALIZER;
static int sum;
static void release(pthread_mutex_t **held) { pthread_mutex_unlock(*held); }
static int add(int more) {
    __attribute__((cleanup(release))) pthread_mutex_t *held = &lock;
    pthread_mutex_lock(held);
    if (more % 2) return sum += 2 * more;
    return sum += more;
}
static void *adds(void *unused) {
    for (int one = 0; one < 50; one++) add(one);
    return unused;
}
int main(void) {
    pthread_t thread;
    pthread_create(&thread, NULL, adds, NULL);
    adds(NULL);
    pthread_join(thread, NULL);
    return sum != 2 * (600 + 2 * 625);
}
