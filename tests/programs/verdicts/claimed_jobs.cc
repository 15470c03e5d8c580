// Verdict: serializable
// The workers of a batch claim jobs by a relaxed atomic counter. Each job is one block, in which the claim is the only access that the
// workers share: the results are bytes side by side. Another worker does two jobs while the first one does its first.
#include "steps.h"
#include <array>
#include <atomic>
#include <numeric>
#include <thread>

class Batch {
public:
    bool work() {
        unsigned job = next_.fetch_add(1, std::memory_order_relaxed);
        if (job >= results_.size()) return false;
        results_[job] = square(job);
        return true;
    }
    int sum() const { return std::accumulate(results_.begin(), results_.end(), 0); }

private:
    static unsigned char square(unsigned job) {
        if (job == 0) {
            make(0);
            await(1);
        }
        return static_cast<unsigned char>(job * job);
    }
    std::atomic<unsigned> next_{0};
    std::array<unsigned char, 7> results_{};
};

static Batch batch;

int main() {
    bool twice = false;
    std::thread other([&twice] {
        await(0);
        bool once = batch.work();
        twice = batch.work() && once;
        make(1);
        while (batch.work()) {}
    });
    while (batch.work()) {}
    other.join();
    return !(twice && batch.sum() == 91);
}
