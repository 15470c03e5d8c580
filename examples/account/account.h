#include <mutex>

namespace bank {
class Account {
public:
    explicit Account(long money) : money_(money) {}
    long balance();
    bool withdraw(long amount, bool (*approve)());
private:
    std::mutex mutex_;
    long money_;
};
}
