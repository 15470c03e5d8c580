// Verdict: serializable
// Blocks: prints,prints_too
// Options: -static-libstdc++
// A block takes copies of the program's locale, and locks texts that it shares, as another thread does in between. The program contains
// the library, with the mutexes that it has for itself.
#include "steps.h"
#include <atomic>
#include <locale>
#include <memory>
#include <sstream>
#include <thread>
struct Comma : std::numpunct<char> {
    char do_decimal_point() const override { return ','; }
};
static std::shared_ptr<int> one, other;
static size_t print() {
    std::ostringstream text;
    text << 1.5;
    return text.str().size();
}
static int prints() {
    std::atomic_store(&one, std::make_shared<int>(1));
    size_t size = print();
    make(0);
    await(1);
    return (int)(size + print()) + *std::atomic_load(&one);
}
static int prints_too() {
    std::atomic_store(&other, std::make_shared<int>(2));
    return (int)print() + *std::atomic_load(&other);
}
int main() {
    std::locale::global(std::locale(std::locale::classic(), new Comma));
    int sum = 0;
    std::thread second([&] {
        await(0);
        sum = prints_too();
        make(1);
    });
    int own = prints();
    second.join();
    return sum != 5 || own != 7;
}
