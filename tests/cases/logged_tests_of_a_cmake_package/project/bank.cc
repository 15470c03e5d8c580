// Two threads withdraw from one account. They wait for each other by pipes, which no log has, so each run has the same order.
//
//   bank overlap    one thread reads the balance, the other withdraws meanwhile, and then the first one writes the balance
//   bank apart      one withdrawal after the other
//   bank fails      as apart, with the status of a test that fails
//
// It also lists and runs its tests as those of gtest do.
#include <string>
#include <thread>

#include <unistd.h>

static int go[2], gone[2];

static void signal_by(const int *pipe) {
    if (write(pipe[1], "", 1) != 1) _exit(9);
}

static void wait_for(const int *pipe) {
    char byte;
    if (read(pipe[0], &byte, 1) != 1) _exit(9);
}

namespace conc {
struct Account {
    long balance = 100;
    void withdraw(long amount, bool waits) {
        long before = __atomic_load_n(&balance, __ATOMIC_SEQ_CST); // line 28
        if (waits) {
            signal_by(go);
            wait_for(gone);
        }
        __atomic_store_n(&balance, before - amount, __ATOMIC_SEQ_CST); // line 33
    }
};
}

static conc::Account account;

int unused_by_all(int number) { return number + 1; }

int main(int words, char **word) {
    const std::string asked = words > 1 ? word[1] : "";
    if (asked == "--gtest_list_tests") {
        (void)!write(1, "Bank.\n  Overlap\n  Apart\n", 24);
        return 0;
    }
    const bool overlap = asked == "overlap" || asked == "--gtest_filter=Bank.Overlap";
    if (pipe(go) || pipe(gone)) return 9;
    std::thread one([=] {
        account.withdraw(60, overlap);
        if (!overlap) signal_by(go);
    });
    std::thread other([] {
        wait_for(go);
        account.withdraw(30, false);
        signal_by(gone);
    });
    one.join();
    other.join();
    return asked == "fails" ? 5 : 0;
}
