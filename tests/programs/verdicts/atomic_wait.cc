// Verdict: serializable
// Blocks: produce,consume
// std::atomic's wait is no part of a block: what was produced is consumed once its flag is set.
#include <atomic>
#include <thread>
static std::atomic<int> ready;
static long data[3];
static void produce(int one) {
    data[one % 3] = one * one;
    ready.store(one);
    ready.notify_all();
}
static long consume(int one) { return data[one % 3]; }
int main() {
    long sum = 0;
    std::thread other([&] {
        ready.wait(0);
        sum = consume(1);
    });
    produce(1);
    other.join();
    return sum != 1;
}
