/* The makers of bases that the board is held against, by the same plain iteration. Each gives the packed answer. */
#ifndef BASES_H
#define BASES_H

#include "claim.h"

typedef uint64_t basis_function(const uint8_t *problem, size_t problem_len, uint32_t steps, uint8_t *buffer, size_t buffer_len);

/* In plain C with a division for each product of numbers, the same with a division for each coefficient of PF, and over FLINT. */
basis_function plain_make_basis, summed_make_basis, flint_make_basis;

/* What a step does: which rows are pivots, and of the others what each gets of every pivot row. */
struct choice {
    bool pivot[MOST_ROWS];
    uint32_t multiplier[MOST_ROWS][MOST_ROWS];
};

/* By the residuals and the row degrees. */
void choose(uint32_t p, int m, int n, const int *degree, uint32_t residual[MOST_ROWS][MOST_ROWS], struct choice *choice);

/* Each order is replaced by the smaller of it and the steps allowed, which cuts F; gives the steps to do. */
int cut_orders(struct claim *claim, uint32_t steps);

/* The answer is written, with its evidence, if the buffer has room for it. */
uint64_t put_basis(const struct claim *claim, int done, uint8_t *buffer, size_t buffer_len);

#endif
