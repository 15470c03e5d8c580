// Verdict: violation take
// Blocks: take
// Whether there is a job is asked under the lock, and the job is taken under the next lock.
#include "steps.h"
#include <deque>
#include <mutex>
#include <optional>
#include <thread>
static std::mutex lock;
static std::deque<int> jobs{1};
static bool has_one() {
    std::unique_lock held(lock);
    return !jobs.empty();
}
static std::optional<int> take(bool first) {
    if (!has_one()) return std::nullopt;
    if (first) {
        make(0);
        await(1);
    }
    std::unique_lock held(lock);
    if (jobs.empty()) return std::nullopt;
    int job = jobs.front();
    jobs.pop_front();
    return job;
}
int main() {
    std::thread other([] {
        await(0);
        take(false);
        make(1);
    });
    bool none = !take(true);
    other.join();
    return !none;
}
