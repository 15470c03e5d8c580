// Verdict: violation Turnstile::change
// A turnstile changes its state if it is in a given state and a guard, which is a lambda with captures, allows it. The guard runs between
// the look and the change, and another thread breaks the turnstile meanwhile.
#include "steps.h"
#include <atomic>
#include <functional>
#include <mutex>
#include <thread>

class Turnstile {
public:
    enum State { locked, unlocked, broken };

    bool change(State from, State to, const std::function<bool(State)> &guard) {
        if (state() != from || !guard(to)) return false;
        std::lock_guard<std::mutex> held(changing_);
        state_ = to;
        changes_++;
        return true;
    }
    State state() const { return state_.load(); }
    int changes() const { return changes_; }

private:
    std::mutex changing_;
    std::atomic<State> state_{locked};
    int changes_ = 0;
};

int main() {
    Turnstile turnstile;
    int coins = 0, price = 2;
    std::thread vandal([&turnstile] {
        await(0);
        turnstile.change(Turnstile::locked, Turnstile::broken, [](Turnstile::State) { return true; });
        make(1);
    });
    auto pays = [&coins, price](Turnstile::State to) {
        coins += price;
        make(0);
        await(1);
        return to == Turnstile::unlocked && coins >= price;
    };
    bool opened = turnstile.change(Turnstile::locked, Turnstile::unlocked, pays);
    vandal.join();
    return !(opened && turnstile.state() == Turnstile::unlocked && turnstile.changes() == 2);
}
