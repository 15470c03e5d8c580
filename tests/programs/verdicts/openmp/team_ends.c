// Verdict: violation changes_and_looks
// Blocks: changes_and_looks
// What a team has read comes before what main writes once the team has ended.
#include "changes_and_looks.h"
int main(void) {
    pthread_t t;
    pthread_create(&t, NULL, other, NULL);
#pragma omp parallel num_threads(2)
    if (omp_get_thread_num() == 1) {
        await(0);
        seen = x;
    }
    y = 1;
    make(1);
    pthread_join(t, NULL);
    return seen + found - 2;
}
