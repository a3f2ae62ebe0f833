/* What the plain C version has of numbers modulo p and of products, for the other plain parts. */
#ifndef PLAIN_H
#define PLAIN_H

#include "claim.h"

bool is_prime(uint32_t p);

/* a is not 0 modulo p. */
uint32_t inverse(uint32_t a, uint32_t p);

/* The coefficient of PF in row i and column j, with one division. */
uint32_t product_at(const struct claim *claim, int i, int j, int power);

#endif
