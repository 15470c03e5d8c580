// Verdict: violation Account::apply
// Blocks: Account::apply
// Members are called by pointers, one after another: each locks, and the two don't.
#include "steps.h"
#include <mutex>
#include <thread>
struct Account {
    std::mutex m;
    int money = 10;
    int get(int) {
        std::lock_guard l(m);
        return money;
    }
    int set(int to) {
        std::lock_guard l(m);
        return money = to;
    }
    void apply(int (Account::*one)(int), int (Account::*other)(int), bool waits) {
        int seen = (this->*one)(0);
        if (waits) {
            make(0);
            await(1);
        }
        (this->*other)(seen - 1);
    }
};
static Account account;
int main() {
    std::thread other([] {
        await(0);
        account.apply(&Account::get, &Account::set, false);
        make(1);
    });
    account.apply(&Account::get, &Account::set, true);
    other.join();
    return account.money != 9;
}
