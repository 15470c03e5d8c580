// Verdict: violation compute
// Verdict with AERODROME_SPLIT=threads: serializable
// Blocks: compute,work
// A block that starts a thread and waits for its result isn't atomic: the thread runs in its midst.
#include <future>
static int x;
static int work() {
    return ++x;
}
static int compute() {
    x = 1;
    auto f = std::async(std::launch::async, work);
    return f.get() + x;
}
int main() {
    return compute() != 4;
}
