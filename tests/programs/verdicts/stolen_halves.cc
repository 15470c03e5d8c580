// Verdict: serializable
// Each worker has a deque with a mutex of its own. Half of the jobs of a victim are stolen under both mutexes, which are taken in the
// order of the workers and given back at the end, while the victim wants a job.
#include "steps.h"
#include <deque>
#include <mutex>
#include <optional>
#include <thread>

struct Worker {
    std::mutex mutex;
    std::deque<int> jobs;

    std::optional<int> take() {
        std::lock_guard<std::mutex> held(mutex);
        if (jobs.empty()) return std::nullopt;
        int job = jobs.front();
        jobs.pop_front();
        return job;
    }
    void add(int job) {
        std::lock_guard<std::mutex> held(mutex);
        jobs.push_back(job);
    }
};

static Worker workers[2];

static int steal_half(int thief, int victim) {
    std::lock_guard<std::mutex> low(workers[0].mutex);
    std::lock_guard<std::mutex> high(workers[1].mutex);
    make(0);
    std::deque<int> &from = workers[victim].jobs, &to = workers[thief].jobs;
    int half = static_cast<int>(from.size() / 2);
    for (int one = 0; one < half; one++) {
        to.push_front(from.back());
        from.pop_back();
    }
    return half;
}

int main() {
    for (int job = 1; job <= 400; job++) workers[1].add(job);
    int own = 0, stolen = 0;
    std::thread victim([&own] {
        await(0);
        while (std::optional<int> job = workers[1].take()) own += *job;
    });
    steal_half(0, 1);
    while (std::optional<int> job = workers[0].take()) stolen += *job;
    victim.join();
    return own + stolen != 400 * 401 / 2;
}
