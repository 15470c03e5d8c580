// Verdict: violation changes_and_looks
// Blocks: changes_and_looks
// What main has read before it starts a team comes before what the team writes. (The first team starts the thread, which the second
// one uses again.)
#include "changes_and_looks.h"
int main(void) {
    pthread_t t;
    int sums[2];
#pragma omp parallel num_threads(2)
    sums[omp_get_thread_num()] = 1;
    pthread_create(&t, NULL, other, NULL);
    await(0);
    seen = x;
#pragma omp parallel num_threads(2)
    if (omp_get_thread_num() == 1) {
        y = 1;
        make(1);
    }
    pthread_join(t, NULL);
    return seen + found + sums[0] + sums[1] - 4;
}
