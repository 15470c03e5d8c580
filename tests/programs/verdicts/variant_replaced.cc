// Verdict: violation replace
// Blocks: replace
// A variant has a number when the block looks, and a text when it writes.
#include "steps.h"
#include <string>
#include <thread>
#include <variant>
static std::variant<int, std::string> value = 1;
static void replace(bool first) {
    if (!std::holds_alternative<int>(value)) return;
    if (first) {
        make(0);
        await(1);
    }
    value = std::string(first ? "first" : "a text that needs memory of its own");
}
int main() {
    std::thread other([] {
        await(0);
        replace(false);
        make(1);
    });
    replace(true);
    other.join();
    return std::get<std::string>(value) != "first";
}
