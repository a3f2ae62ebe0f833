#include "drawn.h"

#include "board.h"
#include "maker.h"
#include "times.h"

#include <stdlib.h>

enum { CLAIMS = 64, REPEATS = 8, FIRST_COLUMN = 27, ROW_BYTES = 4 * MOST_ORDER };

struct drawing {
    uint32_t u[BOARD_DRAWN], point;
};

/* Numbers below every prime of the largest claims, one that is below none, and such as are below every prime. */
static const struct drawing large = {{1234567890, 987654321, 1122334455, 2019181716}, 1357924680};
static const struct drawing too_large = {{UINT32_MAX, 987654321, 1122334455, 2019181716}, 1357924680};
static const struct drawing ones = {{1, 1, 1, 1}, 1};

static uint32_t number_at(const uint8_t *bytes)
{
    return bytes[0] | (uint32_t)bytes[1] << 8 | (uint32_t)bytes[2] << 16 | (uint32_t)bytes[3] << 24;
}

/* One more, modulo p. */
static void raise_number(uint8_t *bytes, uint32_t p)
{
    uint32_t raised = (number_at(bytes) + 1) % p;
    for (int i = 0; i < 4; i++)
        bytes[i] = (uint8_t)(raised >> 8 * i);
}

static void hold(const struct files *f, uint64_t due)
{
    if (judge(f->problem, f->problem_len, f->answer, f->answer_len) != due)
        exit(2);
}

/* The last number of C is another: all of the product is looked at, and the rank is not. */
static void spoil_last(struct files *f, uint32_t p)
{
    raise_number(f->answer + f->answer_len - 4, p);
    hold(f, 12 + (2 << 8) + (3 << 16) + ((uint64_t)3 << 32));
}

/*
 * The constants of F's first column are others: the first entry of the product has a fault, and no other is looked at. So the time of that
 * entry, at most one in sixteen, is missing from what is measured. With even numbers the claims have no first row that is a multiple of X^16.
 */
static void spoil_first(struct files *f, uint32_t p)
{
    for (int i = 0; i < MOST_ROWS; i++)
        raise_number(f->problem + FIRST_COLUMN + i * ROW_BYTES, p);
    hold(f, 11 + (2 << 8));
}

static double time_calls(const struct drawing *d, const struct files *files, int claims, int repeats)
{
    double start = microseconds();
    for (int r = 0; r < repeats; r++)
        for (int i = 0; i < claims; i++)
            judge_drawn(files[i].problem, files[i].problem_len, files[i].answer, files[i].answer_len, d->u, d->point);
    return (microseconds() - start) / repeats / claims;
}

double time_judge_drawn(const struct files *files, int claims, int repeats)
{
    return time_calls(&ones, files, claims, repeats);
}

struct drawn_times time_drawn(void)
{
    static struct files honest[CLAIMS], last[CLAIMS], first[CLAIMS];
    double product[ROUNDS], drawn[ROUNDS], ratio[ROUNDS];
    for (int i = 0; i < CLAIMS; i++) {
        make_files(LARGEST, 2 * (uint64_t)i, &honest[i]);
        uint32_t p = number_at(honest[i].problem + 2);
        last[i] = first[i] = honest[i];
        spoil_last(&last[i], p);
        spoil_first(&first[i], p);
    }
    for (int round = 0; round < ROUNDS; round++) {
        product[round] = time_judge(judge, last, CLAIMS, REPEATS) - time_judge(judge, first, CLAIMS, REPEATS);
        drawn[round] = time_calls(&large, honest, CLAIMS, REPEATS) - time_calls(&too_large, honest, CLAIMS, REPEATS);
        ratio[round] = drawn[round] / product[round];
    }
    return (struct drawn_times){median(product), median(drawn), median(ratio)};
}
