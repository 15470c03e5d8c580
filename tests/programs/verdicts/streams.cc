// Verdict: serializable
// Blocks: print
// Two threads print to streams of their own, with a locale that the program has set.
#include "steps.h"
#include <locale>
#include <sstream>
#include <thread>
struct Comma : std::numpunct<char> {
    char do_decimal_point() const override { return ','; }
};
static size_t print(bool waits) {
    std::ostringstream one;
    one << 1.5;
    if (waits) {
        make(0);
        await(1);
    }
    std::ostringstream two;
    two << 2.5 << one.str();
    return two.str().size();
}
int main() {
    std::locale::global(std::locale(std::locale::classic(), new Comma));
    std::thread other([] {
        await(0);
        print(false);
        make(1);
    });
    size_t size = print(true);
    other.join();
    return size != 6;
}
