// Functions of many kinds, called by main (T1), by a thread of pthreads (T2), and by two of std::thread (T3, T4), of which the first
// starts with a function that main calls too, and the second with a lambda. A function that touches no memory has no hooks.
#include <algorithm>
#include <cstdio>
#include <functional>
#include <mutex>
#include <pthread.h>
#include <thread>
#include <vector>

struct ééééééééééééééééééééééééééééééééééééééééééééééééééééééééééééééééééééééééééééééé {};
using Long = ééééééééééééééééééééééééééééééééééééééééééééééééééééééééééééééééééééééééééééééé;

namespace bank {
static std::mutex lock;
static long balance = 100, calls;
struct Account {
    void pay(long amount) {
        std::lock_guard<std::mutex> held(lock);
        balance += amount;
    }
    long audit() const { return balance; }
};
template <class T> T twice(T it) {
    calls++;
    return it + it;
}
template <class One, class Other> struct Pair {
    static long second(long it) {
        calls++;
        return it;
    }
};
// Begins, in its readable form, with a type of std.
template <class T> std::vector<T> operator+(std::vector<T> these, const Account &) { return these; }
} // namespace bank

static thread_local long helped;
static long helper(long it) {
    helped++;
    return it + 1;
}
static bool before(long one, long other) { return one < other; }

// A thread starts with it, and main calls it too.
static void work(long it) { bank::Account().pay(helper(it)); }
static void *start(void *unused) {
    work(1);
    return unused;
}

int main() {
    pthread_t thread;
    pthread_create(&thread, nullptr, start, nullptr);
    pthread_join(thread, nullptr);
    std::thread(work, 2).join();
    std::thread([] { work(3); }).join();
    work(4);
    std::vector<long> all{3, 1, 2};
    std::sort(all.begin(), all.end(), before);
    all = all + bank::Account();
    std::function<long(long)> called = helper;
    std::printf("%ld\n", bank::Account().audit() + bank::twice(called(all[0])) + bank::Pair<Long, Long>::second(0));
}
