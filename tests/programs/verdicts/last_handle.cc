// Verdict: serializable
// Handles count their references by an atomic number, and the last one that goes calls a std::function to close the file. Each copy and
// each release is one block with one step on the count. The last release comes while the first one isn't at its end yet.
#include "steps.h"
#include <atomic>
#include <functional>
#include <thread>
#include <utility>

struct File {
    std::function<void(int)> close;
    int number;
    std::atomic<int> references{1};
};

class Handle {
public:
    explicit Handle(File *file) : file_(file) {}
    Handle(const Handle &other) : file_(other.file_) { file_->references.fetch_add(1, std::memory_order_relaxed); }
    Handle &operator=(const Handle &) = delete;
    ~Handle() { drop(false); }

    void drop(bool slow) {
        File *file = std::exchange(file_, nullptr);
        if (!file) return;
        if (file->references.fetch_sub(1, std::memory_order_acq_rel) == 1) file->close(file->number);
        if (slow) {
            make(0);
            await(1);
        }
    }

private:
    File *file_;
};

int main() {
    int closed = 0, closings = 0;
    File file{[&](int number) { closed = number, closings++; }, 42};
    {
        Handle first(&file);
        Handle second(first);
        std::thread other([&second] {
            await(0);
            Handle third(second);
            second.drop(false);
            third.drop(false);
            make(1);
        });
        first.drop(true);
        other.join();
    }
    return !(closed == 42 && closings == 1 && file.references == 0);
}
