// A function template whose symbol has more than 1,024 bytes, called by a thread with a small stack, and a method of such a class.
#include <cstdio>
#include <pthread.h>
#include <unistd.h>

template <class A, class B> struct pair_of_types {};
template <int N> struct nested {
    using type = pair_of_types<typename nested<N - 1>::type, pair_of_types<int[N], char (*)(bool, long)>>;
};
template <> struct nested<0> { using type = int; };

namespace bank {
template <class T> __attribute__((noinline)) int pay() {
    static int paid;
    return ++paid;
}
template <class T> struct Account {
    int money;
    __attribute__((noinline)) int balance() const { return money; }
    __attribute__((noinline)) Account() : money(7) {}
};
__attribute__((noinline)) int small() {
    static int paid;
    return ++paid;
}
}
static void *run(void *unused) {
    bank::Account<nested<60>::type> account;
    bank::small();
    return bank::pay<nested<48>::type>() + bank::pay<nested<60>::type>() + account.balance() == 9 ? unused : nullptr;
}
int main() {
    pthread_attr_t attributes;
    pthread_t thread;
    void *result;
    pthread_attr_init(&attributes);
    long least = sysconf(_SC_THREAD_STACK_MIN);
    pthread_attr_setstacksize(&attributes, least > 16384 ? (size_t)least : 16384);
    if (pthread_create(&thread, &attributes, run, &thread)) return 3;
    pthread_join(thread, &result);
    return result != &thread;
}
