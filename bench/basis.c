/*
 * The makers are held to each other on the problems of every group, with different steps and buffers, by their answers and the buffers
 * afterwards. Then they are timed in turns on the largest problems, m = n = 4, orders 16, p near 2^31, with all steps.
 */
#include "basis.h"

#include "bases.h"
#include "board.h"
#include "maker.h"
#include "stack.h"
#include "times.h"

#include <inttypes.h>
#include <stdio.h>
#include <string.h>

enum { CLAIMS = 64, COMPARED = 400, REPEATS = 20, SHOWN = 10, LENT = BOARD_ANSWER_MOST + 8, GUARD = 0xAA };

static const struct {
    const char *name;
    basis_function *call;
} makers[] = {
    {"board", make_basis},
    {"plain", plain_make_basis},
    {"plain sums", summed_make_basis},
#ifdef WITH_FLINT
    {"FLINT", flint_make_basis},
#endif
};

enum { MAKERS = sizeof makers / sizeof *makers };

static struct files asked;

static uint64_t answer(int maker, uint32_t steps, size_t lent, uint8_t *buffer)
{
    memset(buffer, GUARD, LENT);
    return makers[maker].call(asked.problem, asked.problem_len, steps, buffer, lent);
}

static int compare(enum group group, uint64_t number, uint32_t steps, size_t lent)
{
    static uint8_t due_bytes[LENT], got_bytes[LENT];
    int differences = 0;
    uint64_t due = answer(0, steps, lent, due_bytes);
    for (int k = 1; k < MAKERS; k++) {
        uint64_t got = answer(k, steps, lent, got_bytes);
        if (got == due && memcmp(got_bytes, due_bytes, LENT) == 0)
            continue;
        differences++;
        printf("DIFFERENCE: basis of group %d, claim %" PRIu64 ", %" PRIu32 " steps in %zu bytes: %s %016" PRIx64 ", %s %016" PRIx64 "\n",
               (int)group, number, steps, lent, makers[0].name, due, makers[k].name, got);
    }
    return differences;
}

static int compare_all(void)
{
    static const enum group groups[] = {LARGEST, MIXED, SMALL, JOBS, DIAGONAL};
    struct source source = {.state = 7};
    int differences = 0;
    for (size_t g = 0; g < sizeof groups / sizeof *groups; g++)
        for (uint64_t i = 0; i < COMPARED && differences < SHOWN; i++) {
            make_files(groups[g], i, &asked);
            differences += compare(groups[g], i, UINT32_MAX, BOARD_ANSWER_MOST);
            differences += compare(groups[g], i, draw(&source, MOST_ORDER + 2), draw(&source, LENT + 1));
        }
    return differences;
}

static double time_maker(basis_function *call, const struct files *files)
{
    static uint8_t buffer[BOARD_ANSWER_MOST];
    double start = microseconds();
    for (int r = 0; r < REPEATS; r++)
        for (int i = 0; i < CLAIMS; i++)
            call(files[i].problem, files[i].problem_len, UINT32_MAX, buffer, sizeof buffer);
    return (microseconds() - start) / REPEATS / CLAIMS;
}

static void print_times(void)
{
    static struct files files[CLAIMS];
    double times[MAKERS][ROUNDS], sorted[ROUNDS];
    for (int i = 0; i < CLAIMS; i++)
        make_files(LARGEST, (uint64_t)i, &files[i]);
    for (int round = 0; round < ROUNDS; round++)
        for (int k = 0; k < MAKERS; k++) {
            int j = round % 2 == 0 ? k : MAKERS - 1 - k;
            times[j][round] = time_maker(makers[j].call, files);
        }
    printf("one basis, largest:");
    for (int j = 0; j < MAKERS; j++) {
        memcpy(sorted, times[j], sizeof sorted);
        printf(" %s %.3f us", makers[j].name, median(sorted));
        for (int round = 0; round < ROUNDS; round++)
            sorted[round] = times[0][round] / times[j][round];
        if (j > 0)
            printf(" (%s/%s %.3f)", makers[0].name, makers[j].name, median(sorted));
    }
    printf("\n");
}

static void make_once(void)
{
    static uint8_t buffer[BOARD_ANSWER_MOST];
    make_basis(asked.problem, asked.problem_len, UINT32_MAX, buffer, sizeof buffer);
}

int print_bases(void)
{
    int differences = compare_all();
    printf("differences between %d makers of bases: %d\n", (int)MAKERS, differences);
    print_times();
    make_files(LARGEST, 0, &asked);
    printf("stack of one basis, largest: %zu bytes\n", stack_depth(make_once));
    return differences;
}
