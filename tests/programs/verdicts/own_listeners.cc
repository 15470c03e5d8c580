// Verdict: violation Subject::notify
// A subject notifies its listeners, each of which keeps what it heard in a vector of its own thread. The subject looks at the number of
// listeners for each one, under a lock. Another thread adds a listener while the first one listens.
#include "steps.h"
#include <mutex>
#include <thread>
#include <vector>

static thread_local std::vector<int> heard;
static thread_local int last = -1;

class Subject {
public:
    using Listener = void (*)(int);

    void add(Listener listener) {
        std::lock_guard<std::mutex> held(mutex_);
        listeners_.push_back(listener);
    }
    std::size_t notify(int news) {
        std::size_t told = 0;
        while (Listener listener = after(told)) {
            listener(news);
            told++;
        }
        return told;
    }

private:
    Listener after(std::size_t place) {
        std::lock_guard<std::mutex> held(mutex_);
        return place < listeners_.size() ? listeners_[place] : nullptr;
    }
    std::mutex mutex_;
    std::vector<Listener> listeners_;
};

static void keeps(int news) {
    heard.push_back(news);
    last = news;
}
static void keeps_slowly(int news) {
    keeps(news);
    make(0);
    await(1);
}

int main() {
    Subject subject;
    subject.add(keeps_slowly);
    bool own = false;
    std::thread other([&] {
        await(0);
        keeps(1);
        subject.add(keeps);
        own = heard.size() == 1 && last == 1;
        make(1);
    });
    std::size_t told = subject.notify(7);
    other.join();
    return !(told == 2 && own && heard.size() == 2 && last == 7);
}
