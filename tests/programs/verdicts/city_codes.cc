// Verdict: violation Codes::code_of
// A table gives each city a code. A semaphore with one permit protects the table, but a city that isn't there is added by a second
// permit. Between the two, another thread adds a city, and both have the same code.
#include "steps.h"
#include <semaphore>
#include <string_view>
#include <thread>

class Codes {
public:
    int code_of(std::string_view city, void (*compute)()) {
        permit_.acquire();
        int code = find(city);
        int next = used_;
        permit_.release();
        if (code >= 0) return code;
        compute();
        permit_.acquire();
        rows_[used_++] = {city, next};
        permit_.release();
        return next;
    }

private:
    struct Row {
        std::string_view city;
        int code;
    };
    int find(std::string_view city) const {
        for (int row = 0; row < used_; row++)
            if (rows_[row].city == city) return rows_[row].code;
        return -1;
    }
    std::counting_semaphore<4> permit_{1};
    Row rows_[8] = {};
    int used_ = 0;
};

UNLOGGED void computes_long() {
    make(0);
    await(1);
}
UNLOGGED void computes_nothing() {}
static Codes codes;

int main() {
    codes.code_of("Bern", computes_nothing);
    int oslo = -1;
    std::thread other([&oslo] {
        await(0);
        oslo = codes.code_of("Oslo", computes_nothing);
        make(1);
    });
    int rome = codes.code_of("Rome", computes_long);
    other.join();
    return !(rome == 1 && oslo == 1 && codes.code_of("Bern", computes_nothing) == 0);
}
