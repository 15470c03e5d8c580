/* Two threads hold a read-write lock to read at the same time, of which they make sure by pipes, which no log has. Then each holds
 * it to write. */
#include <pthread.h>
#include <stdio.h>
#include <sys/socket.h>
#include <unistd.h>

static pthread_rwlock_t lock = PTHREAD_RWLOCK_INITIALIZER;
static long value = 7;
static int ends[2];

/* Returns once both are here. */
static void meet(int end) {
    char byte = 0;
    if (write(ends[end], &byte, 1) != 1 || read(ends[end], &byte, 1) != 1) perror("meet");
}

static long look(int end) {
    pthread_rwlock_rdlock(&lock);
    long found = value;
    meet(end);
    pthread_rwlock_unlock(&lock);
    return found;
}

static void change(long by) {
    pthread_rwlock_wrlock(&lock);
    value = value + by;
    pthread_rwlock_unlock(&lock);
}

static void *work(void *end) {
    change(look(end != NULL));
    return NULL;
}

int main(void) {
    pthread_t other;
    if (socketpair(AF_UNIX, SOCK_STREAM, 0, ends)) return 2;
    pthread_create(&other, NULL, work, ends);
    work(NULL);
    pthread_join(other, NULL);
    printf("%ld\n", value);
    return 0;
}
