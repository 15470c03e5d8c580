// Verdict: serializable
// Blocks: walk,other
// A coroutine suspends between two accesses: each resume is a block of its own, so another thread may come between.
#include "steps.h"
#include <coroutine>
#include <mutex>
#include <thread>
static std::mutex m;
static int x;
struct Task {
    struct promise_type {
        Task get_return_object() {
            return {std::coroutine_handle<promise_type>::from_promise(*this)};
        }
        std::suspend_always initial_suspend() {
            return {};
        }
        std::suspend_always final_suspend() noexcept {
            return {};
        }
        void return_void() {}
        void unhandled_exception() {}
    };
    std::coroutine_handle<promise_type> h;
};
static Task walk() {
    {
        std::lock_guard l(m);
        x++;
    }
    co_await std::suspend_always{};
    {
        std::lock_guard l(m);
        x++;
    }
}
static void other() {
    std::lock_guard l(m);
    x++;
}
int main() {
    Task t = walk();
    std::thread o([] {
        await(0);
        other();
        make(1);
    });
    t.h.resume();
    make(0);
    await(1);
    t.h.resume();
    o.join();
    t.h.destroy();
    return x != 3;
}
