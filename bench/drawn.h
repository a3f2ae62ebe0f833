/* The test by drawn numbers against the product's conditions of the judge. */
#ifndef DRAWN_H
#define DRAWN_H

#include "files.h"

/* Microseconds, on the largest claims; both without the reading of the files. */
struct drawn_times {
    double product; /* the conditions on the product, by the judge */
    double drawn;   /* the same by drawn numbers */
    double ratio;   /* the median of the rounds' ratios */
};

struct drawn_times time_drawn(void);

/* The time of one call of `judge_drawn`, over `repeats` calls for each of the claims. */
double time_judge_drawn(const struct files *files, int claims, int repeats);

#endif
