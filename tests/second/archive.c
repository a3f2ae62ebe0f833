/*
 * Runs a bundle of cases through the archive, as a C host would: for each case the line of the verdict and the line of the evidence, spelt
 * as the program `cases` spells them. The part that a verdict points at has no C entry and no line here.
 *
 *     archive BUNDLE
 *     archive --drawn DRAWINGS      claims with a row u and a point drawn for each: a line with the four numbers of the answer
 *
 * Each answer is judged against its prepared problem too, and the prepared problem spoilt in every part, each of which has to be 20. What is
 * not as it should be is printed, a line more than there should be. Last, on the other stream, how many forms were tried.
 *
 * The files of each case, u and the bytes lent are in memory of exactly their lengths. Exit status 1: the bundle can't be read or is cut.
 */
#include "board.h"

#include <inttypes.h>
#include <stdbool.h>
#include <stdio.h>
#include <stdlib.h>
#include <string.h>

enum { LENT = 170, COEFFICIENTS = BOARD_ROWS * BOARD_ROWS * BOARD_ORDER };

static uint64_t forms;

static bool read_number(FILE *bundle, uint32_t *number)
{
    uint8_t bytes[4];
    if (fread(bytes, 1, sizeof bytes, bundle) != sizeof bytes)
        return false;
    *number = bytes[0] | (uint32_t)bytes[1] << 8 | (uint32_t)bytes[2] << 16 | (uint32_t)bytes[3] << 24;
    return true;
}

static uint8_t *room(size_t length)
{
    uint8_t *bytes = malloc(length + (length == 0));
    if (bytes == NULL)
        exit(1);
    return bytes;
}

static void print_numbers(const char *word, uint64_t verdict)
{
    printf("%s %u %u %u %" PRIu32, word, board_code(verdict), board_file(verdict), board_record(verdict), board_at(verdict));
}

/* A form that no file gives. */
static void try_spoilt(const struct board_problem *form, const uint8_t *answer, size_t answer_len, const char *part)
{
    forms++;
    uint64_t got = board_judge_prepared(form, answer, answer_len);
    if (got != BOARD_NOT_GIVEN) {
        print_numbers(part, got);
        printf("\n");
    }
}

/* Numbers above every coefficient that are no primes, or too large; and numbers below 2. */
static void spoil_prime(const struct board_problem *given, const uint8_t *answer, size_t answer_len)
{
    static const uint32_t primes[] = {0, 1, 2147483645, 2147483646, 2147483648, 2147483659, 4294967291, 4294967295};
    for (size_t i = 0; i < sizeof primes / sizeof *primes; i++) {
        struct board_problem form = *given;
        form.p = primes[i];
        try_spoilt(&form, answer, answer_len, "spoilt p");
    }
}

static void spoil_sizes(const struct board_problem *given, const uint8_t *answer, size_t answer_len)
{
    static const size_t sizes[] = {0, BOARD_ROWS + 1, 256, SIZE_MAX};
    for (size_t i = 0; i < sizeof sizes / sizeof *sizes; i++) {
        struct board_problem form = *given;
        form.m = sizes[i];
        try_spoilt(&form, answer, answer_len, "spoilt m");
        form = *given;
        form.n = sizes[i];
        try_spoilt(&form, answer, answer_len, "spoilt n");
    }
}

static void spoil_orders(const struct board_problem *given, const uint8_t *answer, size_t answer_len)
{
    static const size_t orders[] = {0, BOARD_ORDER + 1, 256, SIZE_MAX}, unused[] = {1, BOARD_ORDER, SIZE_MAX};
    for (size_t j = 0; j < BOARD_ROWS; j++)
        for (size_t i = 0; i < (j < given->n ? 4 : 3); i++) {
            struct board_problem form = *given;
            form.orders[j] = j < given->n ? orders[i] : unused[i];
            try_spoilt(&form, answer, answer_len, "spoilt order");
        }
}

static void spoil_shifts(const struct board_problem *given, const uint8_t *answer, size_t answer_len)
{
    static const int32_t shifts[] = {1001, -1001, INT32_MAX, INT32_MIN}, unused[] = {1, -1, 1000, INT32_MIN};
    for (size_t i = 0; i < BOARD_ROWS; i++)
        for (size_t k = 0; k < 4; k++) {
            struct board_problem form = *given;
            form.shifts[i] = i < given->m ? shifts[k] : unused[k];
            try_spoilt(&form, answer, answer_len, "spoilt shift");
        }
}

/* A coefficient that there is becomes p, any other becomes 1. */
static void spoil_coefficients(const struct board_problem *given, const uint8_t *answer, size_t answer_len)
{
    for (size_t x = 0; x < COEFFICIENTS; x++) {
        size_t j = x / (BOARD_ROWS * BOARD_ORDER), i = x / BOARD_ORDER % BOARD_ROWS, k = x % BOARD_ORDER;
        bool used = j < given->n && i < given->m && k < given->orders[j];
        struct board_problem form = *given;
        form.f[x] = used ? given->p : 1;
        try_spoilt(&form, answer, answer_len, used ? "spoilt coefficient" : "spoilt zero");
    }
}

/* The answer against its prepared problem: the verdict is the one that the single call gave. A refused problem leaves the form as it was. */
static void try_prepared(uint64_t due, const uint8_t *problem, size_t problem_len, const uint8_t *answer, size_t answer_len)
{
    struct board_problem form, before;
    memset(&form, LENT, sizeof form);
    memcpy(&before, &form, sizeof form);
    uint64_t read = board_prepare(problem, problem_len, &form);
    forms++;
    if (board_code(read) != BOARD_PASS) {
        if (read != due || memcmp(&form, &before, sizeof form) != 0)
            printf("prepared: refused otherwise\n");
        try_spoilt(&form, answer, answer_len, "never prepared");
        return;
    }
    if (read != 0 || board_judge_prepared(&form, answer, answer_len) != due)
        printf("prepared: another verdict\n");
    spoil_prime(&form, answer, answer_len);
    spoil_sizes(&form, answer, answer_len);
    spoil_orders(&form, answer, answer_len);
    spoil_shifts(&form, answer, answer_len);
    spoil_coefficients(&form, answer, answer_len);
}

static void print_case(const uint8_t *problem, size_t problem_len, const uint8_t *answer, size_t answer_len, uint8_t *lent, size_t lent_len)
{
    uint64_t verdict = judge(problem, problem_len, answer, answer_len);
    if (board_code(verdict) == BOARD_PASS)
        printf("pass %" PRIu32, board_at(verdict));
    else
        print_numbers("refuse", verdict);
    printf("\n");
    try_prepared(verdict, problem, problem_len, answer, answer_len);
    memset(lent, LENT, lent_len);
    uint64_t made = make_evidence(problem, problem_len, answer, answer_len, lent, lent_len);
    print_numbers("evidence", made);
    if (lent_len > 0)
        printf(" ");
    for (size_t i = 0; i < lent_len; i++)
        printf("%02x", lent[i]);
    printf("\n");
}

static bool run_case(FILE *bundle)
{
    uint32_t problem_len, answer_len, lent_len;
    if (!read_number(bundle, &problem_len) || !read_number(bundle, &answer_len) || !read_number(bundle, &lent_len))
        return false;
    uint8_t *problem = room(problem_len), *answer = room(answer_len), *lent = room(lent_len);
    bool whole = fread(problem, 1, problem_len, bundle) == problem_len && fread(answer, 1, answer_len, bundle) == answer_len;
    if (whole)
        print_case(problem, problem_len, answer, answer_len, lent, lent_len);
    free(problem);
    free(answer);
    free(lent);
    return whole;
}

static bool run_drawing(FILE *bundle)
{
    uint32_t problem_len, answer_len, point, *u = (uint32_t *)(void *)room(BOARD_DRAWN * sizeof *u);
    bool whole = read_number(bundle, &problem_len) && read_number(bundle, &answer_len);
    for (int i = 0; i < BOARD_DRAWN; i++)
        whole = whole && read_number(bundle, &u[i]);
    whole = whole && read_number(bundle, &point);
    if (!whole)
        return false;
    uint8_t *problem = room(problem_len), *answer = room(answer_len);
    whole = fread(problem, 1, problem_len, bundle) == problem_len && fread(answer, 1, answer_len, bundle) == answer_len;
    if (whole)
        print_numbers("drawn", judge_drawn(problem, problem_len, answer, answer_len, u, point));
    printf("\n");
    free(problem);
    free(answer);
    free(u);
    return whole;
}

int main(int argc, char **argv)
{
    bool drawn = argc == 3 && strcmp(argv[1], "--drawn") == 0;
    FILE *bundle = argc == 2 || drawn ? fopen(argv[argc - 1], "rb") : NULL;
    uint32_t count;
    if (bundle == NULL || !read_number(bundle, &count))
        return 1;
    for (uint32_t i = 0; i < count; i++)
        if (!(drawn ? run_drawing(bundle) : run_case(bundle)))
            return 1;
    fclose(bundle);
    if (!drawn)
        fprintf(stderr, "%" PRIu64 " prepared forms\n", forms);
    return 0;
}
