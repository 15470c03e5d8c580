// Verdict: serializable
// Blocks: twice,other
// Atomics of one, two, four and eight bytes lie beside one another: each thread has its own ones.
#include "steps.h"
#include <atomic>
#include <cstdint>
#include <thread>
struct S {
    std::atomic<uint8_t> a, b;
    std::atomic<uint16_t> c, d;
    std::atomic<uint32_t> e;
    std::atomic<uint64_t> f, g;
};
static S *s;
static void twice() {
    s->a++;
    s->c++;
    s->e.fetch_or(1);
    s->f++;
    make(0);
    await(1);
    s->a.load();
    s->c.store(2);
    s->e.load();
    s->f.exchange(3);
}
static void other() {
    s->b++;
    s->d++;
    s->g++;
    s->b.load();
    s->d.load();
    s->g.load();
}
int main() {
    s = new S{};
    std::thread o([] {
        await(0);
        other();
        make(1);
    });
    twice();
    o.join();
    delete s;
}
