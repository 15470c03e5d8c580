// Verdict: serializable
// Blocks: add,sum
// Two threads push to one vector, which moves as it grows, and read all of it.
#include <mutex>
#include <numeric>
#include <thread>
#include <vector>
static std::mutex lock;
static std::vector<std::pair<int, short>> all;
static void add(int one) {
    std::lock_guard held(lock);
    all.emplace_back(one, static_cast<short>(-one));
}
static int sum() {
    std::lock_guard held(lock);
    return std::accumulate(all.begin(), all.end(), 0, [](int sum, auto &it) { return sum + it.first + it.second; });
}
static void run() {
    for (int one = 0; one < 70; one++) {
        add(one);
        if (sum()) std::terminate();
    }
}
int main() {
    std::thread other(run);
    run();
    other.join();
    return all.size() != 140;
}
