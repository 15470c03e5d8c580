// Verdict: violation request
// A request tries again until there is a connection. It looks at the host's name first. Then another thread changes the name and dials,
// once, and the request finds that it is done.
#include "steps.h"
#include <pthread.h>
#include <stdatomic.h>
static pthread_once_t dialled = PTHREAD_ONCE_INIT;
static atomic_int host;
static int line_number;

static void dial(void) {
    line_number = 100 + atomic_load(&host);
}
static void move_to(int other_host) {
    atomic_store(&host, other_host);
    pthread_once(&dialled, dial);
}
static int try_request(int wanted) {
    if (!wanted) return 0;
    pthread_once(&dialled, dial);
    return line_number;
}
static int request(void) {
    int answer = 0;
    for (int tries = 0; tries < 3 && !answer; tries++) {
        int wanted = tries ? 1 : atomic_load(&host);
        answer = try_request(wanted);
        if (answer) break;
        make(0);
        await(1);
    }
    return answer;
}
static void *mover(void *unused) {
    await(0);
    move_to(4);
    make(1);
    return unused;
}
int main(void) {
    pthread_t thread;
    pthread_create(&thread, NULL, mover, NULL);
    int answer = request();
    pthread_join(thread, NULL);
    return answer != 104;
}
