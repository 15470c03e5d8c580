// Verdict: serializable
// Blocks: use
// One place under a lock, in which objects of several types are made, used and destroyed.
#include <mutex>
#include <new>
#include <thread>
static std::mutex m;
alignas(16) static unsigned char place[64];
struct A {
    int a, b;
    A() : a(1), b(2) {}
    ~A() {
        a = 0;
    }
    virtual int sum() {
        return a + b;
    }
};
struct B : A {
    double d = 2;
    int sum() override {
        return a + (int)d;
    }
};
static int use(int n) {
    std::lock_guard l(m);
    A *p = n % 2 ? new (place) A : new (place) B;
    int s = p->sum();
    p->~A();
    return s;
}
int main() {
    std::thread o([] {
        for (int i = 0; i < 50; i++) use(i);
    });
    for (int i = 0; i < 50; i++) use(i);
    o.join();
}
