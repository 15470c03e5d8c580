// Verdict: serializable
// Blocks: tokens
// A rate limiter is a coroutine for each thread, which takes tokens out of a common bucket whenever it is resumed. Each resumption is a
// block, with one lock. So it doesn't matter that the other thread takes tokens between two of them.
#include "steps.h"
#include <algorithm>
#include <coroutine>
#include <exception>
#include <mutex>
#include <thread>
#include <utility>

class Tokens {
public:
    struct promise_type {
        int granted = 0;
        Tokens get_return_object() { return Tokens(std::coroutine_handle<promise_type>::from_promise(*this)); }
        std::suspend_always initial_suspend() noexcept { return {}; }
        std::suspend_always final_suspend() noexcept { return {}; }
        std::suspend_always yield_value(int count) {
            granted = count;
            return {};
        }
        void return_void() {}
        void unhandled_exception() { std::terminate(); }
    };
    explicit Tokens(std::coroutine_handle<promise_type> handle) : handle_(handle) {}
    Tokens(Tokens &&other) noexcept : handle_(std::exchange(other.handle_, nullptr)) {}
    ~Tokens() {
        if (handle_) handle_.destroy();
    }
    int next() {
        handle_.resume();
        return handle_.promise().granted;
    }

private:
    std::coroutine_handle<promise_type> handle_;
};

struct Bucket {
    std::mutex mutex;
    int left = 10;
};

static Tokens tokens(Bucket &bucket, int wanted) {
    for (;;) {
        int count = 0;
        {
            std::lock_guard<std::mutex> held(bucket.mutex);
            count = std::min(wanted, bucket.left);
            bucket.left -= count;
        }
        co_yield count;
    }
}

int main() {
    Bucket bucket;
    int others = 0;
    std::thread other([&] {
        Tokens taken = tokens(bucket, 3);
        await(0);
        others += taken.next();
        others += taken.next();
        make(1);
    });
    Tokens taken = tokens(bucket, 2);
    int mine = taken.next();
    make(0);
    await(1);
    mine += taken.next() + taken.next();
    other.join();
    return !(mine == 4 && others == 6 && bucket.left == 0);
}
