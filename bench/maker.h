/*
 * Claims for the bench and the tests, the same ones in every run: a claim depends on its group and its number alone.
 *
 * Honest bases are made by the iteration of source document 004. For a random F of m rows and at least m columns the only basis is
 * X^d times a constant matrix, so F is made as A * B + X^e * R, with A and B of low rank: the bases then have entries of every length.
 */
#ifndef MAKER_H
#define MAKER_H

#include "files.h"

enum group {
    LARGEST, /* honest; m = n = 4, all orders 16, p one of the largest primes below 2^31 */
    MIXED,   /* a quarter each: honest, honest and then spoilt, honest and then cut, random; all sizes and primes */
    SMALL,   /* honest; m = n = 1, p = 251 */
    JOBS,    /* honest; m = n = 4, p = 251, as in bench jobs */
    DIAGONAL /* the same, by `make_diagonal` */
};

void make_files(enum group group, uint64_t number, struct files *files);

/* A source of numbers, for tests that need more of them. */
struct source {
    uint64_t state;
};

/* From 0 up to `below`, which is not 0. */
uint32_t draw(struct source *source, uint32_t below);

/*
 * The smallest claims of four rows and columns, of which elimination is a large part: P = X * D, F = 1, C = D, orders 1 and D diagonal
 * with entries from 1 to `most`, which is below p. The leading matrix is D and [P(0) C] is D behind zeros, so elimination asks for the
 * inverses of D's first three entries, twice.
 */
void make_diagonal(uint32_t p, uint32_t most, struct source *source, struct files *files);

#endif
