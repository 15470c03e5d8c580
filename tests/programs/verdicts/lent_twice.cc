// Verdict: violation Pool::lend
// The places of a pool are variants. A free object is found under a shared lock, and replaced by the name of its borrower under an
// exclusive one. Two threads find the same object.
#include "steps.h"
#include <array>
#include <mutex>
#include <shared_mutex>
#include <string>
#include <thread>
#include <variant>

struct Tool {
    int number;
};

class Pool {
public:
    int lend(const std::string &borrower, void (*choose)()) {
        std::size_t place = find();
        if (place == places_.size()) return -1;
        choose();
        std::unique_lock<std::shared_mutex> held(mutex_);
        places_[place] = borrower;
        return static_cast<int>(place);
    }
    std::string borrower(std::size_t place) const {
        std::shared_lock<std::shared_mutex> held(mutex_);
        const std::string *name = std::get_if<std::string>(&places_[place]);
        return name ? *name : std::string();
    }

private:
    std::size_t find() const {
        std::shared_lock<std::shared_mutex> held(mutex_);
        std::size_t place = 0;
        while (place < places_.size() && !std::holds_alternative<Tool>(places_[place])) place++;
        return place;
    }
    mutable std::shared_mutex mutex_;
    std::array<std::variant<std::monostate, Tool, std::string>, 3> places_{std::monostate(), Tool{7}, Tool{8}};
};

UNLOGGED void chooses_slowly() {
    make(0);
    await(1);
}
UNLOGGED void chooses_at_once() {}

int main() {
    Pool pool;
    int others = -1;
    std::thread other([&] {
        await(0);
        others = pool.lend("a neighbour of the workshop", chooses_at_once);
        make(1);
    });
    int mine = pool.lend("me", chooses_slowly);
    other.join();
    return !(mine == 1 && others == 1 && pool.borrower(1) == "me" && pool.borrower(2).empty());
}
