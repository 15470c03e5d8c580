// Verdict: violation steal_row
// Options: -fopenmp
// The threads of a team steal rows of a table. Each looks at the next row and advances it, in two critical sections, and both get the
// same row.
#include "steps.h"
#include <omp.h>
enum { ROWS = 8 };
static int next_row;
static int owners[ROWS], sums[2];

static int look(void) {
    int row;
#pragma omp critical(rows)
    row = next_row;
    return row;
}
static void advance_to(int row) {
#pragma omp critical(rows)
    next_row = row;
}
static int steal_row(int slow) {
    int row = look();
    if (slow) {
        make(0);
        await(1);
    }
    advance_to(row + 1);
    return row;
}
static void own(int row, int owner) {
#pragma omp atomic
    owners[row] += 1;
    sums[owner] += row;
}
int main(void) {
    if (omp_get_max_threads() < 1) return 2;
    omp_set_dynamic(0);
#pragma omp parallel num_threads(2)
    {
        int self = omp_get_thread_num();
        if (self) await(0);
        int row = steal_row(!self);
        own(row, self);
        if (self) make(1);
    }
    return !(next_row == 1 && owners[0] == 2);
}
