// Verdict: violation changes_and_looks
// Blocks: changes_and_looks
// What one thread of a team has read comes before what another one writes behind a barrier, also if each had a team of its own before.
#include "changes_and_looks.h"
int main(void) {
    pthread_t t;
    int sums[2] = {0, 0};
    pthread_create(&t, NULL, other, NULL);
#pragma omp parallel num_threads(2)
    {
        int own = omp_get_thread_num();
#pragma omp parallel num_threads(1)
        sums[own] = 1;
        if (own == 0) {
            await(0);
            seen = x;
        }
#pragma omp barrier
        if (own == 1) {
            y = 1;
            make(1);
        }
    }
    pthread_join(t, NULL);
    return seen + found + sums[0] + sums[1] - 4;
}
