// Verdict: violation shows
// Blocks: shows
// A block copies a long text twice, and another thread changes a byte of it in between.
#include "steps.h"
#include <string>
#include <thread>

static std::string *text;

static bool shows() {
    std::string before(*text);
    make(0);
    await(1);
    std::string after(*text);
    return before == after;
}

int main() {
    text = new std::string("a text that is too long to lie within the object itself");
    std::thread other([] {
        await(0);
        (*text)[3] = 'y';
        make(1);
    });
    bool is_same = shows();
    other.join();
    return is_same;
}
