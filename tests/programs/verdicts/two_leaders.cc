// Verdict: violation election::campaign
// Two candidates look whether there is a leader, who would be held by a shared_ptr, ask for support, and become the leader. Both do.
#include "steps.h"
#include <memory>
#include <mutex>
#include <string>
#include <thread>

namespace election {
struct Leader {
    std::string name;
    int term;
};

static std::mutex mutex;
static std::shared_ptr<const Leader> leader;
static int terms;

static bool vacant() {
    std::lock_guard<std::mutex> held(mutex);
    return leader == nullptr;
}
static void install(std::shared_ptr<const Leader> winner) {
    std::lock_guard<std::mutex> held(mutex);
    leader.swap(winner);
    terms++;
}
bool campaign(const std::string &name, void (*ask)()) {
    if (!vacant()) return false;
    ask();
    install(std::make_shared<const Leader>(Leader{name, 1}));
    return true;
}
}

UNLOGGED void asks_long() {
    make(0);
    await(1);
}
UNLOGGED void asks_nobody() {}

int main() {
    bool other_won = false;
    std::thread other([&] {
        await(0);
        other_won = election::campaign("a candidate with a long name", asks_nobody);
        make(1);
    });
    bool won = election::campaign("me", asks_long);
    other.join();
    return !(won && other_won && election::terms == 2 && election::leader->name == "me");
}
