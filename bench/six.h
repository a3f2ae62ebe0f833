/* Six answers to one problem: by a prepared problem, by single calls, and by FLINT with the problem kept. */
#ifndef SIX_H
#define SIX_H

#include "files.h"

#include <stddef.h>
#include <stdint.h>

enum { SIX = 6 };

struct answer {
    const uint8_t *bytes;
    size_t length;
};

/* The verdicts on the answers, in their order. */
typedef void six_function(const uint8_t *problem, size_t problem_len, const struct answer *answers, uint64_t *verdicts);

six_function prepared_six, single_six, flint_six;

/* Six answers to the problem of a claim: its own three times, and it cut, with a byte more, and with a byte changed. */
void six_answers(const struct files *files, struct answer *answers);

/* How many of the claims get other verdicts from the first than from the second. */
int six_differences(six_function *one, six_function *other, const struct files *files, int claims);

/* The time of six answers, over `repeats` turns for each of the claims. */
double time_six(six_function *judge, const struct files *files, int claims, int repeats);

#endif
