// Ways out of a block other than its return: an exception, through two functions, in many threads, with the locks of C++.
#include <condition_variable>
#include <cstdio>
#include <mutex>
#include <stdexcept>
#include <thread>
#include <vector>

static std::mutex lock;
static long balance = 100;

struct Bank {
    static void refuse(long amount) {
        if (amount > 50) throw std::runtime_error("too much");
    }
    static void withdraw(long amount) {
        std::lock_guard<std::mutex> held(lock);
        refuse(amount);
        balance -= amount;
    }
};

static void work(long amount) {
    for (int times = 0; times < 10; times++)
        try {
            Bank::withdraw(amount);
        } catch (const std::runtime_error &) {
        }
}

int main() {
    std::vector<std::thread> threads;
    for (long amount : {1, 60, 2, 70}) threads.emplace_back(work, amount);
    for (auto &one : threads) one.join();
    std::printf("%ld\n", balance);
}
