#include "inverse.h"

#include "maker.h"
#include "times.h"

enum { CLAIMS = 400, REPEATS = 10, INVERSES = 6, OTHER_PRIME = 257 };

static void make_diagonals(uint32_t p, uint32_t most, struct files *files)
{
    struct source source = {.state = p};
    for (int i = 0; i < CLAIMS; i++)
        make_diagonal(p, most, &source, &files[i]);
}

double time_inverse(judge_function *judge, uint32_t p)
{
    static struct files drawn[CLAIMS], ones[CLAIMS];
    double differences[ROUNDS];
    make_diagonals(p, p - 1, drawn);
    make_diagonals(OTHER_PRIME, 1, ones);
    for (int round = 0; round < ROUNDS; round++)
        differences[round] = time_judge(judge, drawn, CLAIMS, REPEATS) - time_judge(judge, ones, CLAIMS, REPEATS);
    return median(differences) * 1000 / INVERSES;
}
