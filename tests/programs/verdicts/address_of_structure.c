// Verdict: violation renew
// Blocks: renew
// Options: -O2
// A function that is given an address reads the structure there, which another thread changes before the first one writes it.
#include "steps.h"
#include <pthread.h>
struct four {
    float a, b, c, d;
};
static struct four shared;
static struct four look(const struct four *at) { return *at; }
static const struct four *volatile where = &shared;
static void renew(int first) {
    struct four seen = look(where);
    if (first) {
        make(0);
        await(1);
    }
    shared.a = seen.a + seen.b + 1;
}
static void *other(void *unused) {
    await(0);
    renew(0);
    make(1);
    return unused;
}
int main(void) {
    pthread_t thread;
    pthread_create(&thread, NULL, other, NULL);
    renew(1);
    pthread_join(thread, NULL);
    return 0;
}
