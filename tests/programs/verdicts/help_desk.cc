// Verdict: serializable
// A help desk serves customers until it is shut down, by an atomic_ref to a plain number. The last customer who came in time is served
// during the shutdown, and the next one finds the desk closed.
#include "steps.h"
#include <atomic>
#include <thread>

struct Desk {
    alignas(std::atomic_ref<int>::required_alignment) int open = 1;
    alignas(std::atomic_ref<long>::required_alignment) long served = 0;

    bool serve(int customer) {
        if (!std::atomic_ref<int>(open).load()) return false;
        if (customer == 1) {
            make(0);
            await(1);
        }
        std::atomic_ref<long>(served).fetch_add(customer);
        return true;
    }
    void shut_down() { std::atomic_ref<int>(open).store(0); }
};

static Desk desk;

int main() {
    int customers = 0;
    std::thread clerk([&customers] {
        while (desk.serve(customers)) customers++;
    });
    await(0);
    desk.shut_down();
    make(1);
    clerk.join();
    return !(customers == 2 && desk.served == 1);
}
