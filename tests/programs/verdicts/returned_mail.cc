// Verdict: violation Mailroom::deliver
// A letter is taken from a queue. If it can't be delivered, an exception brings it back to the front of the queue. Meanwhile another
// thread has taken the letter behind it, and an exception has ended a block of its own.
#include "steps.h"
#include <deque>
#include <mutex>
#include <stdexcept>
#include <string>
#include <thread>

class Mailroom {
public:
    void put(std::string letter) {
        std::lock_guard<std::mutex> held(mutex_);
        letters_.push_back(std::move(letter));
    }
    std::string take() {
        std::lock_guard<std::mutex> held(mutex_);
        if (letters_.empty()) throw std::out_of_range("no letter");
        std::string letter = std::move(letters_.front());
        letters_.pop_front();
        return letter;
    }
    bool deliver(void (*carry)(const std::string &)) {
        std::string letter = take();
        try {
            carry(letter);
            return true;
        } catch (const std::runtime_error &) {
            std::lock_guard<std::mutex> held(mutex_);
            letters_.push_front(std::move(letter));
            return false;
        }
    }

private:
    std::mutex mutex_;
    std::deque<std::string> letters_;
};

static void carry_back(const std::string &letter) {
    make(0);
    await(1);
    throw std::runtime_error(letter);
}

static Mailroom mailroom;

int main() {
    mailroom.put("to the first address of all");
    mailroom.put("to the second");
    std::string taken;
    bool empty = false;
    std::thread other([&] {
        await(0);
        taken = mailroom.take();
        try {
            mailroom.take();
        } catch (const std::out_of_range &) {
            empty = true;
        }
        make(1);
    });
    bool delivered = mailroom.deliver(carry_back);
    other.join();
    return !(!delivered && empty && taken == "to the second" && mailroom.take() == "to the first address of all");
}
