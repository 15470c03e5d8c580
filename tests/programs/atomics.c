/* Two threads add by atomic operations.
 *
 *   atomics together   by one operation each
 *   atomics apart      the first one by a load and a store, with the other one's add between, in each run: they wait for each
 *                      other by pipes, which no log has */
#include <pthread.h>
#include <stdatomic.h>
#include <stdio.h>
#include <string.h>
#include <unistd.h>

static atomic_long count;
static _Atomic(char) small;
static _Atomic(short) middle;
static atomic_int wide;
static int apart, go[2], gone[2];

static void pass(int *by) {
    if (write(by[1], "", 1) != 1) perror("write");
}
static void await(int *by) {
    char byte;
    if (read(by[0], &byte, 1) != 1) perror("read");
}

static void add(void) { atomic_fetch_add(&count, 1); }

static void add_apart(void) {
    long now = atomic_load(&count);
    pass(go);
    await(gone);
    atomic_store(&count, now + 1);
}

/* A compare-exchange that fails reads. */
static void swap(void) {
    int expected = 12345;
    if (!atomic_compare_exchange_strong(&wide, &expected, 1)) expected = 0;
}

static void *first(void *unused) {
    if (apart) add_apart();
    else add();
    atomic_fetch_or(&small, 1);
    atomic_exchange(&middle, 2);
    swap();
    return unused;
}
static void *second(void *unused) {
    if (apart) await(go);
    add();
    if (apart) pass(gone);
    atomic_fetch_xor(&small, 1);
    swap();
    return unused;
}

int main(int words, char **word) {
    pthread_t one, other;
    apart = words > 1 && !strcmp(word[1], "apart");
    if (pipe(go) || pipe(gone)) return 2;
    pthread_create(&one, NULL, first, NULL);
    pthread_create(&other, NULL, second, NULL);
    pthread_join(one, NULL);
    pthread_join(other, NULL);
    printf("%ld\n", atomic_load(&count));
    return 0;
}
