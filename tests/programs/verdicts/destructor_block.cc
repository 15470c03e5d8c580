// Verdict: violation Session::~Session
// Blocks: Session::Session,Session::~Session
// A session is counted when it is made and when it goes; the one that goes first reads and then writes.
#include "steps.h"
#include <memory>
#include <mutex>
#include <thread>
static std::mutex lock;
static int open_ones;
struct Closing {
    virtual ~Closing() = default;
};
struct Session : virtual Closing {
    bool slow;
    explicit Session(bool slow) : slow(slow) {
        std::lock_guard held(lock);
        open_ones++;
    }
    ~Session() override {
        lock.lock();
        int now = open_ones;
        lock.unlock();
        if (slow) {
            make(0);
            await(1);
        }
        std::lock_guard held(lock);
        open_ones = now - 1;
    }
};
int main() {
    std::unique_ptr<Closing> session = std::make_unique<Session>(true);
    std::thread other([] {
        await(0);
        { Session quick(false); }
        make(1);
    });
    session.reset();
    other.join();
    return open_ones != 0;
}
