// Verdict: violation Both::act
// Blocks: Both::act
// A block is called through its second base, with a result that is a pointer to another base.
#include "steps.h"
#include <thread>
struct First {
    virtual ~First() = default;
    long before = 1;
};
struct Second {
    virtual ~Second() = default;
    virtual Second *act(bool wait) = 0;
    int count = 0;
};
struct Both : First, Second {
    Both *act(bool wait) override {
        int now = count;
        if (wait) {
            make(0);
            await(1);
        }
        count = now + 1;
        return this;
    }
};
static Both both;
int main() {
    Second *second = &both;
    std::thread other([=] {
        await(0);
        second->act(false);
        make(1);
    });
    Second *same = second->act(true);
    other.join();
    return same != second || both.count != 1;
}
