// Verdict: violation banner
// Blocks: banner
// A banner is made at its first use, by an ostringstream, and an atomic flag says that it is there. Two threads find that it isn't.
#include "steps.h"
#include <atomic>
#include <sstream>
#include <string>
#include <thread>

static std::atomic<bool> ready;
static std::string text;
static std::atomic<int> made;

static std::string compose(int version) {
    std::ostringstream out;
    out << "the program, version " << version << '.' << version + 1;
    return out.str();
}
static std::string banner(void (*prepare)()) {
    if (!ready.load(std::memory_order_acquire)) {
        prepare();
        text = compose(++made);
        ready.store(true, std::memory_order_release);
    }
    return text;
}

UNLOGGED void prepares_long() {
    make(0);
    await(1);
}
UNLOGGED void prepares_nothing() {}

int main() {
    std::string others;
    std::thread other([&others] {
        await(0);
        others = banner(prepares_nothing);
        make(1);
    });
    std::string mine = banner(prepares_long);
    other.join();
    return !(mine == "the program, version 2.3" && others == "the program, version 1.2" && made == 2);
}
