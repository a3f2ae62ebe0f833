/*
 * Time of one call: the board against the plain C version and against FLINT, on the same claims in one process.
 *
 * First every judge is held to document 01's worked cases and to the others on every claim; a difference is printed and the exit status
 * is 1. Then each round times each judge once, one after the other, so that a slow moment of the machine meets all of them, and every
 * other round in the opposite order, since the first finds the claims out of the cache; the times are medians over the rounds, and a
 * ratio is the median of the rounds' ratios.
 */
#include "basis.h"
#include "board.h"
#include "drawn.h"
#include "inverse.h"
#include "judges.h"
#include "maker.h"
#include "peak.h"
#include "six.h"
#include "times.h"
#include "worked.h"

#include <inttypes.h>
#include <stdio.h>
#include <stdlib.h>

enum { CODES = 15, SHOWN = 20 };

static const struct judge {
    const char *name;
    judge_function *call;
} judges[] = {
    {"board", judge},
#ifdef WITH_EARLIER
    {"earlier", earlier_judge},
#endif
    {"plain", plain_judge},
#ifdef WITH_FLINT
    {"FLINT", flint_judge},
#endif
};

enum { JUDGES = sizeof judges / sizeof *judges };

static const struct bundle {
    const char *name;
    enum group group;
    int claims;
    int repeats; /* so that a timing lasts some tens of milliseconds */
} bundles[] = {
    {"largest", LARGEST, 64, 8}, {"mixed", MIXED, 2000, 4}, {"small", SMALL, 500, 60}, {"jobs", JOBS, 200, 20}, {"diagonal", DIAGONAL, 400, 40},
};

enum { BUNDLES = sizeof bundles / sizeof *bundles };

static long codes[CODES];
static int differences;

static uint64_t verdict(int judge, const struct files *f)
{
    return judges[judge].call(f->problem, f->problem_len, f->answer, f->answer_len);
}

static void print_verdict(const char *name, uint64_t v)
{
    printf("  %s %" PRIu64 " %" PRIu64 " %" PRIu64 " %" PRIu64 "\n", name, v & 0xFF, v >> 8 & 0xFF, v >> 16 & 0xFFFF, v >> 32);
}

static void compare(const char *bundle, int claim, const char *name, uint64_t due, int judge, uint64_t got)
{
    if (got == due)
        return;
    differences++;
    if (differences > SHOWN)
        return;
    printf("DIFFERENCE: %s claim %d\n", bundle, claim);
    print_verdict(name, due);
    print_verdict(judges[judge].name, got);
}

static void compare_worked(void)
{
    for (int i = 0; i < worked_count; i++) {
        struct files files;
        write_files(&worked_cases[i].claim, &files);
        for (int j = 0; j < JUDGES; j++)
            compare("worked", i, worked_cases[i].name, worked_cases[i].verdict, j, verdict(j, &files));
    }
}

static void compare_bundle(const struct bundle *bundle, const struct files *files)
{
    for (int i = 0; i < bundle->claims; i++) {
        uint64_t first = verdict(0, &files[i]);
        codes[(first & 0xFF) % CODES]++;
        for (int j = 1; j < JUDGES; j++)
            compare(bundle->name, i, judges[0].name, first, j, verdict(j, &files[i]));
    }
}

static void print_header(void)
{
    printf("%-8s %6s", "claims", "number");
    for (int j = 0; j < JUDGES; j++)
        printf("   %s us", judges[j].name);
    for (int i = 0; i < JUDGES; i++)
        for (int j = i + 1; j < JUDGES; j++)
            printf("   %s/%s", judges[i].name, judges[j].name);
    printf("\n");
}

static void print_times(const struct bundle *bundle, const struct files *files)
{
    double times[JUDGES][ROUNDS], sorted[ROUNDS];
    for (int round = 0; round < ROUNDS; round++)
        for (int k = 0; k < JUDGES; k++) {
            int j = round % 2 == 0 ? k : JUDGES - 1 - k;
            times[j][round] = time_judge(judges[j].call, files, bundle->claims, bundle->repeats);
        }
    printf("%-8s %6d", bundle->name, bundle->claims);
    for (int j = 0; j < JUDGES; j++) {
        for (int round = 0; round < ROUNDS; round++)
            sorted[round] = times[j][round];
        printf("   %8.3f", median(sorted));
    }
    for (int i = 0; i < JUDGES; i++)
        for (int j = i + 1; j < JUDGES; j++) {
            for (int round = 0; round < ROUNDS; round++)
                sorted[round] = times[i][round] / times[j][round];
            printf("   %11.3f", median(sorted));
        }
    printf("\n");
}

/* Six answers to one problem: prepared once, by single calls, and over FLINT with the problem kept. */
static const struct {
    const char *name;
    six_function *call;
} sixes[] = {
    {"prepared", prepared_six},
    {"single", single_six},
#ifdef WITH_FLINT
    {"FLINT kept", flint_six},
#endif
};

enum { SIXES = sizeof sixes / sizeof *sixes };

static void print_sixes(const struct bundle *bundle, const struct files *files)
{
    double times[SIXES][ROUNDS], sorted[ROUNDS];
    for (int round = 0; round < ROUNDS; round++)
        for (int k = 0; k < SIXES; k++) {
            int j = round % 2 == 0 ? k : SIXES - 1 - k;
            times[j][round] = time_six(sixes[j].call, files, bundle->claims, bundle->repeats / 4 + 1);
        }
    printf("six answers, %-8s", bundle->name);
    for (int j = 0; j < SIXES; j++) {
        differences += six_differences(sixes[0].call, sixes[j].call, files, bundle->claims);
        for (int round = 0; round < ROUNDS; round++)
            sorted[round] = times[0][round] / times[j][round];
        double ratio = median(sorted);
        for (int round = 0; round < ROUNDS; round++)
            sorted[round] = times[j][round];
        printf("   %s %.3f us", sixes[j].name, median(sorted));
        if (j > 0)
            printf(" (prepared / it %.3f)", ratio);
    }
    printf("\n");
}

/* Two files of the largest sizes, with the modulus given. */
static void longest_files(uint32_t p, struct files *files)
{
    static struct claim claim;
    claim.p = p;
    claim.m = claim.n = MOST_ROWS;
    for (int i = 0; i < MOST_ROWS; i++) {
        claim.order[i] = MOST_ORDER;
        for (int j = 0; j < MOST_ROWS; j++) {
            claim.length[i][j] = MOST_LENGTH;
            claim.entry[i][j][MOST_LENGTH - 1] = 1;
        }
    }
    write_files(&claim, files);
}

/* The time of one reading: making evidence reads both files to their ends and refuses the answer by 8, which has a byte too many. */
static double reading_time(const uint8_t *problem, size_t problem_len, const struct files *files)
{
    enum { CALLS = 2000 };
    double rounds[ROUNDS];
    uint8_t none[1];
    for (int round = 0; round < ROUNDS; round++) {
        double start = microseconds();
        for (int i = 0; i < CALLS; i++)
            make_evidence(problem, problem_len, files->answer, files->answer_without + 1, none, 0);
        rounds[round] = (microseconds() - start) / CALLS;
    }
    return median(rounds);
}

/* The test of the largest prime is timed by a problem that ends after p. */
static void print_reading(void)
{
    enum { UP_TO_P = 6 };
    static struct files small, large;
    longest_files(2, &small);
    longest_files(2147483647, &large);
    printf("reading the longest pair: %.3f us with p = 2; is_prime(2147483647): %.3f us\n",
           reading_time(small.problem, small.problem_len, &small), reading_time(large.problem, UP_TO_P, &large));
}

static void print_inverse(const char *name, judge_function *call)
{
    static const uint32_t primes[] = {251, 257};
    for (size_t i = 0; i < sizeof primes / sizeof *primes; i++)
        printf("one inverse beyond that of 1, %s, p = %" PRIu32 ": %.1f ns\n", name, primes[i], time_inverse(call, primes[i]));
}

static void print_drawn(struct files *const *files)
{
    struct drawn_times times = time_drawn();
    printf("largest, without reading: the conditions on the product %.3f us, by drawn numbers %.3f us, drawn/product %.3f\n", times.product,
           times.drawn, times.ratio);
    printf("one call of judge_drawn:");
    for (int b = 0; b < BUNDLES; b++)
        printf(" %s %.3f us", bundles[b].name, time_judge_drawn(files[b], bundles[b].claims, bundles[b].repeats));
    printf("\n");
}

static struct files *make_bundle(const struct bundle *bundle)
{
    struct files *files = malloc((size_t)bundle->claims * sizeof *files);
    if (files == NULL)
        exit(2);
    for (int i = 0; i < bundle->claims; i++)
        make_files(bundle->group, (uint64_t)i, &files[i]);
    return files;
}

static void print_codes(void)
{
    printf("verdicts by code:");
    for (int code = 0; code < CODES; code++)
        if (codes[code] > 0)
            printf(" %d: %ld", code, codes[code]);
    printf("\n");
}

int main(void)
{
    struct files *files[BUNDLES];
    compare_worked();
    for (int b = 0; b < BUNDLES; b++) {
        files[b] = make_bundle(&bundles[b]);
        compare_bundle(&bundles[b], files[b]);
    }
    print_codes();
    printf("differences between %d judges: %d\n", (int)JUDGES, differences);
    print_header();
    for (int b = 0; b < BUNDLES; b++)
        print_times(&bundles[b], files[b]);
    for (int b = 0; b < BUNDLES; b++)
        print_sixes(&bundles[b], files[b]);
    printf("differences with six answers too: %d\n", differences);
    struct peak peak = peak_stack();
    printf("peak stack of one call: judge %zu bytes, make_evidence %zu, prepare %zu, judge_prepared %zu, judge_drawn %zu\n", peak.judge,
           peak.make_evidence, peak.prepare, peak.judge_prepared, peak.judge_drawn);
    print_reading();
    print_drawn(files);
    print_inverse("board", judge);
#ifdef WITH_EARLIER
    print_inverse("earlier", earlier_judge);
#endif
    differences += print_bases();
    for (int b = 0; b < BUNDLES; b++)
        free(files[b]);
    return differences == 0 ? 0 : 1;
}
