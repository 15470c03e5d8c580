// Verdict: violation copy_twice
// Blocks: copy_twice
// A wide text is copied twice, and another thread changes one character in between.
#include "steps.h"
#include <string>
#include <thread>
static std::wstring name(20, L'a');
static bool copy_twice() {
    std::wstring one = name;
    make(0);
    await(1);
    std::wstring two = name;
    return one == two;
}
int main() {
    std::thread other([] {
        await(0);
        name[7] = L'x';
        make(1);
    });
    bool same = copy_twice();
    other.join();
    return same;
}
