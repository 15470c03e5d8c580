// Verdict: serializable
// The first stage of a pipeline counts words in an unordered_map, and the second one takes the whole map out by a swap, both under one
// lock. A take has begun, with a look at what only its own thread counts, when the words come.
#include "steps.h"
#include <mutex>
#include <string>
#include <thread>
#include <unordered_map>

class Words {
public:
    using Counts = std::unordered_map<std::string, int>;

    void count(const std::string &word) {
        std::lock_guard<std::mutex> held(mutex_);
        counts_[word]++;
    }
    void take_into(Counts &total, bool slow) {
        rounds_++;
        if (slow) {
            make(0);
            await(1);
        }
        Counts taken;
        {
            std::lock_guard<std::mutex> held(mutex_);
            taken.swap(counts_);
        }
        for (const auto &[word, count] : taken) total[word] += count;
        if (slow) make(2);
    }
    int rounds() const { return rounds_; }

private:
    std::mutex mutex_;
    Counts counts_;
    int rounds_ = 0;
};

int main() {
    Words words;
    Words::Counts total;
    std::thread reader([&words] {
        await(0);
        for (int word = 0; word < 60; word++) words.count("a word of the text, number " + std::to_string(word % 20));
        make(1);
        await(2);
        words.count("end");
    });
    words.take_into(total, true);
    reader.join();
    words.take_into(total, false);
    return !(total.size() == 21 && total["end"] == 1 && total["a word of the text, number 19"] == 3 && words.rounds() == 2);
}
