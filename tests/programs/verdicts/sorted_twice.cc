// Verdict: violation tidy
// Blocks: tidy
// A vector is sorted under the lock, and searched under the next lock, after another thread has turned it round.
#include "steps.h"
#include <algorithm>
#include <mutex>
#include <thread>
#include <vector>
static std::mutex lock;
static std::vector<long> all{5, 3, 4, 1, 2};
static bool tidy() {
    {
        std::lock_guard held(lock);
        std::sort(all.begin(), all.end());
    }
    make(0);
    await(1);
    std::lock_guard held(lock);
    return std::is_sorted(all.begin(), all.end());
}
int main() {
    std::thread other([] {
        await(0);
        {
            std::lock_guard held(lock);
            std::reverse(all.begin(), all.end());
        }
        make(1);
    });
    bool sorted = tidy();
    other.join();
    return sorted;
}
