// Verdict: serializable
// A ledger is sorted by qsort and searched by bsearch under one mutex, with a function of the program that compares. Meanwhile an audit
// has begun, and sums up later.
#include "steps.h"
#include <pthread.h>
enum { ACCOUNTS = 6 };
struct account {
    int number;
    long cents;
};
static pthread_mutex_t ledger_lock = PTHREAD_MUTEX_INITIALIZER;
static struct account ledger[ACCOUNTS] = {{40, 10}, {7, 20}, {99, 30}, {13, 40}, {2, 50}, {71, 60}};
static int audits;

static int by_number(const void *left, const void *right) {
    const struct account *one = left, *two = right;
    return (one->number > two->number) - (one->number < two->number);
}
static int transfer(int from, int to, long cents) {
    struct account source = {.number = from}, target = {.number = to};
    pthread_mutex_lock(&ledger_lock);
    qsort(ledger, ACCOUNTS, sizeof *ledger, by_number);
    struct account *payer = bsearch(&source, ledger, ACCOUNTS, sizeof *ledger, by_number);
    struct account *payee = bsearch(&target, ledger, ACCOUNTS, sizeof *ledger, by_number);
    int possible = payer && payee && payer->cents >= cents;
    if (possible) payer->cents -= cents, payee->cents += cents;
    pthread_mutex_unlock(&ledger_lock);
    return possible;
}
static long audit(void) {
    long sum = 0;
    audits++;
    make(0);
    await(1);
    pthread_mutex_lock(&ledger_lock);
    for (int one = 0; one < ACCOUNTS; one++) sum += ledger[one].cents;
    pthread_mutex_unlock(&ledger_lock);
    return sum;
}
static void *clerk(void *unused) {
    await(0);
    if (!transfer(71, 2, 35) || transfer(3, 2, 1)) abort();
    make(1);
    return unused;
}
int main(void) {
    pthread_t thread;
    pthread_create(&thread, NULL, clerk, NULL);
    long sum = audit();
    pthread_join(thread, NULL);
    qsort(ledger, ACCOUNTS, sizeof *ledger, by_number);
    return !(sum == 210 && audits == 1 && ledger[0].cents == 85);
}
