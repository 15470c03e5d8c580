// Verdict: serializable
// Blocks: prepare,use
// What is prepared before a latch opens is used behind it.
#include <latch>
#include <thread>
static std::latch l(1);
static int x;
static void prepare() {
    x = 5;
}
static int use() {
    return x;
}
int main() {
    int r = 0;
    std::thread o([&] {
        l.wait();
        r = use();
    });
    prepare();
    l.count_down();
    o.join();
    return r != 5;
}
