#include "account.h"

namespace bank {
long Account::balance() {
    std::lock_guard<std::mutex> held(mutex_);
    return money_;
}
bool Account::withdraw(long amount, bool (*approve)()) {
    if (balance() < amount || !approve()) return false;
    std::lock_guard<std::mutex> held(mutex_);
    money_ -= amount;
    return true;
}
}
