// Verdict: violation keep_trying
// The limit of tries is a std::optional. A block sees that there is none, tries, and sees that there is one: another thread has set it
// in between, and has pushed the deadline too.
#include "steps.h"
#include <optional>
#include <thread>

struct Limits {
    std::optional<int> tries;
    std::optional<long> deadline;
};

static Limits limits;
static int failures;

static bool attempt(int number) {
    if (number == 0) {
        make(0);
        await(1);
    }
    return number == 9;
}
static int keep_trying() {
    int number = 0;
    if (!limits.tries.has_value()) {
        while (number < limits.tries.value_or(5) && !attempt(number)) number++;
        failures += number;
    }
    return number;
}
static void configure(int tries) {
    limits.deadline = 1000L * tries;
    limits.tries = tries;
}

int main() {
    std::thread other([] {
        await(0);
        configure(2);
        make(1);
    });
    int tries = keep_trying();
    other.join();
    limits.deadline.reset();
    return !(tries == 2 && failures == 2 && !limits.deadline && limits.tries == 2);
}
