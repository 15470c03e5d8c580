// Verdict: violation use
// Blocks: use
// A weak pointer is looked at twice in a block, and the object goes between the two.
#include "steps.h"
#include <memory>
#include <thread>
static auto owner = std::make_shared<int>(1);
static std::weak_ptr<int> weak = owner;
static int use() {
    if (weak.expired()) return 2;
    make(0);
    await(1);
    auto locked = weak.lock();
    return locked ? *locked : 3;
}
int main() {
    std::thread other([] {
        await(0);
        owner.reset();
        make(1);
    });
    int seen = use();
    other.join();
    return seen != 3;
}
