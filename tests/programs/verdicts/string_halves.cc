// Verdict: violation append
// Blocks: append
// A line is appended to a text in two steps, each under the lock.
#include "steps.h"
#include <mutex>
#include <string>
#include <thread>
static std::mutex lock;
static std::string text;
static void append(const char *who, bool first) {
    {
        std::lock_guard<std::mutex> held(lock);
        text += who;
    }
    if (first) {
        make(0);
        await(1);
    }
    std::lock_guard<std::mutex> held(lock);
    text += " was here\n";
}
int main() {
    std::thread other([] {
        await(0);
        append("other", false);
        make(1);
    });
    append("first", true);
    other.join();
    return text != "firstother was here\n was here\n";
}
