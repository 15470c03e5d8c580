// A coroutine that is resumed three times, which adds to a counter each time.
#include <coroutine>

namespace bank {
static int count;
struct Task {
    struct promise_type {
        Task get_return_object() { return {std::coroutine_handle<promise_type>::from_promise(*this)}; }
        std::suspend_always initial_suspend() noexcept { return {}; }
        std::suspend_always final_suspend() noexcept { return {}; }
        std::suspend_always yield_value(int) noexcept { return {}; }
        void return_void() {}
        void unhandled_exception() {}
    };
    std::coroutine_handle<promise_type> handle;
};
Task add(int times) {
    for (; times > 0; times--) {
        count++;
        co_yield count;
    }
}
}  // namespace bank

int main() {
    bank::Task task = bank::add(2);
    while (!task.handle.done()) task.handle.resume();
    task.handle.destroy();
    return bank::count - 2;
}
