// Verdict: violation appends
// Blocks: appends
// A block appends to a long text and changes a byte of it, and another thread changes that byte in between.
#include "steps.h"
#include <string>
#include <thread>

static std::string *text;

static void appends() {
    text->append("one");
    (*text)[3] = 'x';
    make(0);
    await(1);
    text->insert(3, "two");
}

int main() {
    text = new std::string("a text that is too long to lie within the object itself");
    text->reserve(200);
    std::thread other([] {
        await(0);
        (*text)[3] = 'y';
        make(1);
    });
    appends();
    other.join();
    return (*text)[6] != 'y';
}
