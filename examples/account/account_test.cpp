// Two threads withdraw from one account of 100. Each withdrawal is allowed, and both together overdraw the account.
#include "account.h"
#include <iostream>
#include <thread>

static bank::Account account(100);

// Waits until both withdrawals have asked, so that they overlap in every run. The attribute keeps this waiting out of the log.
__attribute__((no_sanitize("thread"))) static bool approve() {
    static volatile int asked;
    __atomic_add_fetch(&asked, 1, __ATOMIC_SEQ_CST);
    while (asked < 2) {}
    return true;
}
int main() {
    std::thread other([] { account.withdraw(70, approve); });
    account.withdraw(60, approve);
    other.join();
    std::cout << "balance " << account.balance() << '\n';
}
