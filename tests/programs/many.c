/* many REFUSED THREADS: tries to start so many threads for which there is no memory, which have numbers in the log too; and then so
 * many that add, one after the other. */
#include <pthread.h>
#include <stdlib.h>

static int x;

static void *add(void *unused) {
    x++;
    return unused;
}
int main(int count, char **words) {
    int refused = count > 2 ? atoi(words[1]) : 0, threads = count > 2 ? atoi(words[2]) : 0;
    pthread_attr_t huge;
    pthread_t thread;
    pthread_attr_init(&huge);
    pthread_attr_setstacksize(&huge, (size_t)1 << 47);
    for (int one = 0; one < refused; one++)
        if (!pthread_create(&thread, &huge, add, NULL)) return 1;
    for (int one = 0; one < threads; one++)
        if (pthread_create(&thread, NULL, add, NULL) || pthread_join(thread, NULL)) return 1;
    return x != threads;
}
