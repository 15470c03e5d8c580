// Verdict: serializable
// The gate of a garage is a mutex, whose lock moves from function to function: out of enter, into a ticket, and back by release and
// adopt. It is held from a car's entrance to the end of the block, while another car waits.
#include "steps.h"
#include <mutex>
#include <thread>
#include <utility>

class Garage {
public:
    bool park(int plate, bool slow) {
        std::unique_lock<std::mutex> gate = enter();
        if (slow) make(0);
        std::unique_lock<std::mutex> ticket;
        ticket.swap(gate);
        return fill(plate, std::move(ticket));
    }
    int cars() {
        std::unique_lock<std::mutex> gate = enter();
        return used_;
    }

private:
    std::unique_lock<std::mutex> enter() {
        std::unique_lock<std::mutex> gate(mutex_, std::defer_lock);
        gate.lock();
        entered_++;
        return gate;
    }
    bool fill(int plate, std::unique_lock<std::mutex> ticket) {
        std::mutex *held = ticket.release();
        std::unique_lock<std::mutex> again(*held, std::adopt_lock);
        if (used_ == places) return false;
        plates_[used_++] = plate;
        return again.owns_lock();
    }
    enum { places = 2 };
    std::mutex mutex_;
    int plates_[places] = {};
    int used_ = 0, entered_ = 0;
};

int main() {
    Garage garage;
    bool second = false;
    std::thread other([&] {
        await(0);
        second = garage.park(222, false);
    });
    bool first = garage.park(111, true);
    other.join();
    return !(first && second && !garage.park(333, false) && garage.cars() == 2);
}
