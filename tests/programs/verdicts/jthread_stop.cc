// Verdict: serializable
// Blocks: step,stop
// A jthread that is asked to stop between two of its steps.
#include "steps.h"
#include <stop_token>
#include <thread>
static long count;
static bool stopped;
static void step(std::stop_token t) {
    if (t.stop_requested())
        stopped = true;
    else
        count++;
}
static void stop(std::jthread &t) {
    t.request_stop();
}
int main() {
    std::jthread t([](std::stop_token s) {
        step(s);
        make(0);
        await(1);
        step(s);
    });
    await(0);
    stop(t);
    make(1);
    t.join();
    return !stopped || count != 1;
}
