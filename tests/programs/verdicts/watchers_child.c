// Verdict: violation notify_all
// A file has watchers. To notify them, a block counts them, lets a child process do something that takes long, and goes through them.
// Meanwhile another thread adds a watcher, which the child has asked for.
#include "steps.h"
#include <pthread.h>
#include <sys/wait.h>
enum { MOST = 8 };
typedef void watcher(int event);
static pthread_mutex_t lock = PTHREAD_MUTEX_INITIALIZER;
static watcher *watchers[MOST];
static int count, seen[MOST];

static void watches_first(int event) { seen[0] += event; }
static void watches_late(int event) { seen[1] += event; }
static void watch(watcher *added) {
    pthread_mutex_lock(&lock);
    watchers[count++] = added;
    pthread_mutex_unlock(&lock);
}
static int how_many(void) {
    pthread_mutex_lock(&lock);
    int now = count;
    pthread_mutex_unlock(&lock);
    return now;
}
static watcher *at(int place) {
    pthread_mutex_lock(&lock);
    watcher *found = watchers[place];
    pthread_mutex_unlock(&lock);
    return found;
}
static void do_in_child(void) {
    int status;
    pid_t child = fork();
    if (!child) {
        seen[0] = 100;
        make(0);
        _exit(0);
    }
    if (waitpid(child, &status, 0) != child || status) abort();
    await(1);
}
static int notify_all(int event) {
    int before = how_many();
    do_in_child();
    for (int place = 0; place < how_many(); place++) at(place)(event);
    return before;
}
static void *late(void *unused) {
    await(0);
    watch(watches_late);
    make(1);
    return unused;
}
int main(void) {
    pthread_t thread;
    watch(watches_first);
    pthread_create(&thread, NULL, late, NULL);
    int before = notify_all(5);
    pthread_join(thread, NULL);
    return !(before == 1 && seen[0] == 5 && seen[1] == 5);
}
