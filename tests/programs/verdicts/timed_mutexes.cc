// Verdict: serializable
// Blocks: add,see
// Timed, recursive and shared mutexes of C++, tried for a while before they are taken.
#include <chrono>
#include <mutex>
#include <shared_mutex>
#include <thread>
using namespace std::chrono_literals;
static std::recursive_timed_mutex lock;
static std::shared_timed_mutex table_lock;
static int sum, table[4];
static void add(int more) {
    while (!lock.try_lock_for(1ms)) {}
    std::lock_guard again(lock);
    {
        std::unique_lock held(table_lock, std::defer_lock);
        while (!held.try_lock_until(std::chrono::steady_clock::now() + 1ms)) {}
        table[more % 4] = sum += more;
    }
    lock.unlock();
}
static int see(int one) {
    std::shared_lock held(table_lock, 1h);
    return table[one % 4] >= 0;
}
static void run() {
    for (int one = 0; one < 30; one++) {
        add(one);
        if (!see(one)) std::terminate();
    }
}
int main() {
    std::thread other(run);
    run();
    other.join();
    return sum != 870;
}
