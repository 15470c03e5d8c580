// A withdrawal that gets and sets the balance under a lock each, by a class of a header, and another one that comes between. They
// wait for each other by pipes, which no log has, so each run has the same order.
#include "include/c++/wrap.h"
#include <cstdio>
#include <mutex>
#include <unistd.h>

static wrap::Mutex mutex;
static std::mutex plain;
static long balance = 100, seen;
static int go[2], gone[2];

static long get() {
    wrap::Guard guard(mutex); // get locks
    return balance;
}
static void set(long amount) {
    wrap::Guard guard(mutex); // set locks
    balance = amount;
}

__attribute__((no_sanitize("thread"))) static void pass(int *by) {
    if (write(by[1], "", 1) != 1) perror("write");
}
__attribute__((no_sanitize("thread"))) static void await(int *by) {
    char byte;
    if (read(by[0], &byte, 1) != 1) perror("read");
}

static void withdraw(bool slowly) {
    long now = get();
    if (slowly) pass(go), await(gone);
    set(now - 20);
}
static void look() {
    std::lock_guard<std::mutex> guard(plain); // look locks
    seen++;
}

static void *first(void *) {
    withdraw(true);
    return nullptr;
}
static void *second(void *) {
    await(go);
    withdraw(false);
    pass(gone);
    return nullptr;
}

int main() {
    pthread_t one, other;
    if (pipe(go) || pipe(gone)) return 2;
    pthread_create(&one, nullptr, first, nullptr);
    pthread_create(&other, nullptr, second, nullptr);
    pthread_join(one, nullptr);
    pthread_join(other, nullptr);
    look();
    std::printf("%ld\n", balance);
}
