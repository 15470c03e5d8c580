// Threads wait in std::condition_variable_any for a number, and take one of it. Each of these is atomic from wait to wait:
//
//   any_condition mutex      a notifier comes twice while it has the mutex, between which the waiter wakes up
//   any_condition timed      the same with a wait that may run out
//   any_condition readers    two readers, who are woken up once without a reason
//   any_condition own        a lock of the program's own
//   any_condition stop       a wait that a stop_token ends
//
// and `any_condition stale` isn't: it looks, waits, looks again, and sets later what it has seen, with another thread between the two.
#include <condition_variable>
#include <cstring>
#include <mutex>
#include <shared_mutex>
#include <stop_token>
#include <thread>
#include <unistd.h>

static std::mutex mutex;
static std::shared_mutex shared;
static std::condition_variable_any any;
static int number, waiting;

struct Own {
    void lock() { mutex.lock(); }
    void unlock() { mutex.unlock(); }
};
static Own own;

template <class Lock> static void take(Lock &lock) {
    std::unique_lock<Lock> held(lock);
    waiting = 1;
    while (number == 0) any.wait(held);
    number--;
}
static void take_timed() {
    std::unique_lock<std::mutex> held(mutex);
    waiting = 1;
    any.wait_for(held, std::chrono::seconds(60), [] { return number > 0; });
    number--;
}
static void look() {
    std::shared_lock<std::shared_mutex> held(shared);
    while (number == 0) any.wait(held);
}
static bool take_or_stop(std::stop_token stop) {
    std::unique_lock<std::mutex> held(mutex);
    waiting = 1;
    return any.wait(held, stop, [] { return number > 0; });
}
static void stale() {
    std::unique_lock<std::mutex> held(mutex);
    waiting = 1;
    any.wait(held, [] { return number > 0; });
    int seen = number;
    held.unlock();
    __atomic_store_n(&waiting, 2, __ATOMIC_SEQ_CST);
    while (__atomic_load_n(&waiting, __ATOMIC_SEQ_CST) < 3) {}
    held.lock();
    number = seen - 1;
}

// What a notifier does isn't a block.
static void await() {
    for (bool waits = false; !waits; usleep(1000)) {
        std::lock_guard<std::mutex> held(mutex);
        waits = waiting;
    }
}
static void put() {
    std::lock_guard<std::mutex> held(mutex);
    number++;
    any.notify_one();
    usleep(50000);
    any.notify_one();
}
static void wake_readers() {
    usleep(50000);
    any.notify_all();
    usleep(50000);
    std::unique_lock<std::shared_mutex> held(shared);
    number = 1;
    any.notify_all();
}
int main(int, char **word) {
    const char *how = word[1];
    if (!strcmp(how, "readers")) {
        std::thread one(look), other(look);
        wake_readers();
        one.join();
        other.join();
        return 0;
    }
    if (!strcmp(how, "stop")) {
        std::jthread waits([](std::stop_token stop) { take_or_stop(stop); });
        await();
        // (all that the stop does is over before the thread has its lock again: else it may look in vain whether it is)
        std::lock_guard<std::mutex> held(mutex);
        waits.request_stop();
        return 0;
    }
    bool is_stale = !strcmp(how, "stale");
    std::thread waits([=] {
        if (is_stale) stale();
        else if (!strcmp(how, "timed")) take_timed();
        else if (!strcmp(how, "own")) take(own);
        else take(mutex);
    });
    await();
    put();
    if (is_stale) {
        while (__atomic_load_n(&waiting, __ATOMIC_SEQ_CST) < 2) {}
        std::unique_lock<std::mutex> held(mutex);
        number = 7;
        held.unlock();
        __atomic_store_n(&waiting, 3, __ATOMIC_SEQ_CST);
    }
    waits.join();
}
