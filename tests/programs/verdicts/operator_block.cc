// Verdict: violation Account::operator+=
// Blocks: Account::operator+=,Account::operator()
// Operators of a class are blocks; one reads and writes under two locks.
#include "steps.h"
#include <mutex>
#include <thread>
class Account {
    mutable std::mutex lock;
    int balance = 0;

public:
    int operator()() const {
        std::lock_guard held(lock);
        return balance;
    }
    Account &operator+=(int much) {
        int now = (*this)();
        if (much == 1) {
            make(0);
            await(1);
        }
        std::lock_guard held(lock);
        balance = now + much;
        return *this;
    }
};
int main() {
    Account account;
    std::thread other([&] {
        await(0);
        account += 2;
        make(1);
    });
    account += 1;
    other.join();
    return account() != 1;
}
