// Verdict: serializable
// Blocks: instance,use
// A local static object: whoever is first makes it.
#include <thread>
struct Counter {
    long a = 1, b = 2;
    Counter() {
        a += b;
    }
};
static Counter &instance() {
    static Counter c;
    return c;
}
static long use() {
    Counter &c = instance();
    return c.a + c.b;
}
int main() {
    std::thread o([] {
        for (int i = 0; i < 20; i++) use();
    }),
        p([] {
            for (int i = 0; i < 20; i++) use();
        });
    for (int i = 0; i < 20; i++) use();
    o.join();
    p.join();
}
