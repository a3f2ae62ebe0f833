/* The time of one inverse modulo p, measured within judgements. */
#ifndef INVERSE_H
#define INVERSE_H

#include "judges.h"

/*
 * Of an inverse modulo p beyond that of 1 by division, in nanoseconds: a sixth of the difference between diagonal claims modulo p, which
 * ask for six inverses, and those with D = 1 modulo 257, where an inverse takes no division.
 */
double time_inverse(judge_function *judge, uint32_t p);

#endif
