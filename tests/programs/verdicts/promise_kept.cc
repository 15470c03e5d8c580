// Verdict: serializable
// Blocks: keep,take
// A promise is kept in one block, and its future read in another one behind that, with what the first one wrote.
#include "steps.h"
#include <future>
#include <thread>
static int number;
static void keep(std::promise<int> &promise) {
    number = 3;
    promise.set_value(4);
}
static int take(std::future<int> &future) { return future.get() + number; }
int main() {
    std::promise<int> promise;
    auto future = promise.get_future();
    std::thread other([&] {
        keep(promise);
        make(0);
    });
    await(0);
    int sum = take(future);
    other.join();
    return sum != 7;
}
