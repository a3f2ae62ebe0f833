#include "worked.h"

#define VERDICT(code, file, record, at) ((uint64_t)(code) | (uint64_t)(file) << 8 | (uint64_t)(record) << 16 | (uint64_t)(at) << 32)
#define ROW(...) {__VA_ARGS__}

/* p = 5, one row, one column, order 1, shift 0. */
#define ONE(len, entries, f0, c0) \
    {.p = 5, .m = 1, .n = 1, .order = {1}, .f = {{{f0}}}, .length = {{len}}, .entry = {{entries}}, .evidence = {{c0}}}

/* p = 7, F rows 1 and 1 + X, order 2; P rows (6 + 6X, 1) and (6X, X). */
#define TWO(s0, s1, c1)                                                             \
    {.p = 7, .m = 2, .n = 1, .order = {2}, .shift = {s0, s1},                       \
     .f = {{{1, 0}}, {{1, 1}}},                                                     \
     .length = {{2, 1}, {2, 2}}, .entry = {{{6, 6}, {1}}, {{0, 6}, {0, 1}}},        \
     .evidence = {{0}, {c1}}}

const struct worked worked_cases[] = {
    {"P = X, F = 1, C = 1", ONE(2, ROW(0, 1), 1, 1), VERDICT(0, 0, 0, 1)},
    {"P = X, F = 1, C = 0", ONE(2, ROW(0, 1), 1, 0), VERDICT(12, 2, 0, 0)},
    {"P = 1, F = 1, C = 0", ONE(1, ROW(1), 1, 0), VERDICT(11, 2, 0, 0)},
    {"P = X, F = 0, C = 0", ONE(2, ROW(0, 1), 0, 0), VERDICT(13, 0, 0, 0)},
    {"P = X^2, F = 1, C = 0", ONE(3, ROW(0, 0, 1), 1, 0), VERDICT(13, 0, 0, 0)},
    {"P = 4 + X, F = 0, C = 0", ONE(2, ROW(4, 1), 0, 0), VERDICT(10, 0, 0, 0)},
    {"P = 4 + X, F = 1, C = 0", ONE(2, ROW(4, 1), 1, 0), VERDICT(10, 0, 0, 0)},
    {"P = 0, F = 0, C = 0", ONE(0, ROW(0), 0, 0), VERDICT(9, 0, 0, 0)},
    {"P = 1, F = 0, C = 0", ONE(1, ROW(1), 0, 0), VERDICT(0, 0, 0, 0)},
    {"two rows, shifts 0, 0", TWO(0, 0, 1), VERDICT(0, 0, 0, 2)},
    {"two rows, shifts 0, 1", TWO(0, 1, 1), VERDICT(0, 0, 0, 2)},
    {"two rows, shifts -1, 0", TWO(-1, 0, 1), VERDICT(0, 0, 0, 2)},
    {"two rows, shifts 0, 2", TWO(0, 2, 1), VERDICT(9, 0, 0, 0)},
    {"two rows, C = (0, 0)", TWO(0, 0, 0), VERDICT(12, 2, 1, 0)},
};

const int worked_count = sizeof worked_cases / sizeof *worked_cases;
