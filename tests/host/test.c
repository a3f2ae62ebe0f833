/*
 * The archive as a C host sees it: document 01's worked cases, its example on disk with every variant, and one variant for each code,
 * the same that docs/OPERATOR.md shows, by one call and by a prepared problem; forms that no file gives; the identity for shifts that are far
 * apart; the example with numbers drawn for it; and how deep a call goes into the stack. Each check prints a line only if it fails; the last
 * line is the tally.
 */
#include "board.h"
#include "check.h"
#include "files.h"
#include "peak.h"
#include "worked.h"

#include <stdlib.h>
#include <string.h>

enum { ANSWER = 58, WITHOUT_EVIDENCE = 48, MOST_CHANGES = 4 };

static const uint8_t answer[ANSWER] = {
    0x50, 0x45, 0x00, 0x00, 0x02, 0x06, 0x00, 0x00, 0x00, 0x06, 0x00, 0x00, 0x00,             /* 6 + 6X */
    0x50, 0x45, 0x00, 0x01, 0x01, 0x01, 0x00, 0x00, 0x00,                                     /* 1 */
    0x50, 0x45, 0x01, 0x00, 0x02, 0x00, 0x00, 0x00, 0x00, 0x06, 0x00, 0x00, 0x00,             /* 6X */
    0x50, 0x45, 0x01, 0x01, 0x02, 0x00, 0x00, 0x00, 0x00, 0x01, 0x00, 0x00, 0x00,             /* X */
    0x43, 0x45, 0x00, 0x00, 0x00, 0x00, 0x01, 0x00, 0x00, 0x00,                               /* C = (0, 1) */
};

/* The example with some bytes changed, and bytes taken from or added to the end of the answer. */
struct variant {
    const char *name;
    struct {
        int file, at;
        uint8_t byte;
    } change[MOST_CHANGES];
    int changes, longer;
    unsigned code, file, record;
    uint32_t at;
};

static const struct variant variants[] = {
    {.name = "the example", .at = 2},
    {.name = "answer less its last byte", .longer = -1, .code = 1, .file = 1, .record = 4, .at = 54},
    {.name = "answer cut before CE", .longer = -10, .code = 1, .file = 1, .record = 4, .at = 48},
    {.name = "answer empty", .longer = -ANSWER, .code = 1, .file = 1},
    {.name = "mark of CE", .changes = 1, .change = {{1, 48, 0}}, .code = 2, .file = 1, .record = 4, .at = 48},
    {.name = "order 0", .changes = 1, .change = {{0, 10, 0}}, .code = 3, .record = 1, .at = 10},
    {.name = "order 17", .changes = 1, .change = {{0, 10, 17}}, .code = 3, .record = 1, .at = 10},
    {.name = "m = 5", .changes = 1, .change = {{0, 6, 5}}, .code = 3, .at = 6},
    {.name = "n = 0", .changes = 1, .change = {{0, 7, 0}}, .code = 3, .at = 7},
    {.name = "L = 18", .changes = 1, .change = {{1, 4, 18}}, .code = 3, .file = 1, .at = 4},
    {.name = "shift 1,001", .changes = 2, .change = {{0, 15, 0xE9}, {0, 16, 0x03}}, .code = 3, .record = 2, .at = 15},
    {.name = "shift -1,001", .changes = 2, .change = {{0, 13, 0x17}, {0, 14, 0xFC}}, .code = 3, .record = 2, .at = 13},
    {.name = "p = 9", .changes = 1, .change = {{0, 2, 9}}, .code = 4, .at = 2},
    {.name = "p = 1", .changes = 1, .change = {{0, 2, 1}}, .code = 4, .at = 2},
    {.name = "column number", .changes = 1, .change = {{1, 16, 0}}, .code = 5, .file = 1, .record = 1, .at = 16},
    {.name = "first coefficient 7", .changes = 1, .change = {{1, 5, 7}}, .code = 6, .file = 1, .at = 5},
    {.name = "last coefficient 0", .changes = 1, .change = {{1, 9, 0}}, .code = 7, .file = 1, .at = 9},
    {.name = "one byte more", .longer = 1, .code = 8, .file = 1, .record = 5, .at = 58},
    {.name = "shifts 0, 2", .changes = 1, .change = {{0, 15, 2}}, .code = 9},
    {.name = "1 + X for X", .changes = 1, .change = {{1, 40, 1}}, .code = 10},
    {.name = "F row 0 is 2", .changes = 1, .change = {{0, 20, 2}}, .code = 11, .file = 2},
    {.name = "C = (0, 0)", .changes = 1, .change = {{1, 54, 0}}, .code = 12, .file = 2, .record = 1},
    {.name = "F = 0 and C = 0", .changes = 4, .change = {{0, 20, 0}, {0, 28, 0}, {0, 32, 0}, {1, 54, 0}}, .code = 13},
};

/* The two calls in a row: the verdict of the single one. */
static uint64_t judge_in_two(const uint8_t *p, size_t p_len, const uint8_t *a, size_t a_len)
{
    struct board_problem prepared, before;
    memset(&prepared, GUARD, sizeof prepared);
    memcpy(&before, &prepared, sizeof prepared);
    uint64_t read = board_prepare(p, p_len, &prepared);
    if (board_code(read) == BOARD_PASS)
        return board_judge_prepared(&prepared, a, a_len);
    check(memcmp(&prepared, &before, sizeof prepared) == 0, "a refused problem writes nothing");
    return read;
}

static void check_variants(void)
{
    for (size_t v = 0; v < sizeof variants / sizeof *variants; v++) {
        const struct variant *variant = &variants[v];
        uint8_t p[PROBLEM], a[ANSWER + 1] = {0};
        memcpy(p, problem, PROBLEM);
        memcpy(a, answer, ANSWER);
        for (int i = 0; i < variant->changes; i++)
            (variant->change[i].file == 0 ? p : a)[variant->change[i].at] = variant->change[i].byte;
        uint64_t got = judge(p, PROBLEM, a, (size_t)(ANSWER + variant->longer));
        check_verdict(got, variant->code, variant->file, variant->record, variant->at, variant->name);
        check(judge_in_two(p, PROBLEM, a, (size_t)(ANSWER + variant->longer)) == got, variant->name);
    }
    check_verdict(judge(problem, 0, answer, ANSWER), 1, 0, 0, 0, "problem empty");
    check_verdict(judge(problem, PROBLEM - 1, answer, 0), 1, 0, 3, 32, "problem before answer");
}

/* Forms that no file gives, one for each part, before an answer that is cut and would be refused by 1. */
static void check_not_given(void)
{
    struct board_problem good, form;
    check_verdict(board_prepare(problem, PROBLEM, &good), BOARD_PASS, 0, 0, 0, "the example is prepared");
    form = good, form.p = 9;
    check_verdict(board_judge_prepared(&form, answer, 1), BOARD_NOT_GIVEN, 0, 0, 0, "a form with p = 9");
    form = good, form.m = 5;
    check_verdict(board_judge_prepared(&form, answer, 1), BOARD_NOT_GIVEN, 0, 0, 0, "a form with m = 5");
    form = good, form.n = 0;
    check_verdict(board_judge_prepared(&form, answer, 1), BOARD_NOT_GIVEN, 0, 0, 0, "a form with n = 0");
    form = good, form.orders[0] = 17;
    check_verdict(board_judge_prepared(&form, answer, 1), BOARD_NOT_GIVEN, 0, 0, 0, "a form with order 17");
    form = good, form.orders[3] = 1;
    check_verdict(board_judge_prepared(&form, answer, 1), BOARD_NOT_GIVEN, 0, 0, 0, "a form with an order of no column");
    form = good, form.shifts[0] = -1001;
    check_verdict(board_judge_prepared(&form, answer, 1), BOARD_NOT_GIVEN, 0, 0, 0, "a form with shift -1,001");
    form = good, form.shifts[2] = 1;
    check_verdict(board_judge_prepared(&form, answer, 1), BOARD_NOT_GIVEN, 0, 0, 0, "a form with a shift of no row");
    form = good, form.f[0] = 7;
    check_verdict(board_judge_prepared(&form, answer, 1), BOARD_NOT_GIVEN, 0, 0, 0, "a form with the coefficient p");
    form = good, form.f[2] = 1;
    check_verdict(board_judge_prepared(&form, answer, 1), BOARD_NOT_GIVEN, 0, 0, 0, "a form with a coefficient at the order");
    form = good, form.f[255] = 1;
    check_verdict(board_judge_prepared(&form, answer, 1), BOARD_NOT_GIVEN, 0, 0, 0, "a form with a coefficient of no column");
    memset(&form, 0, sizeof form);
    check_verdict(board_judge_prepared(&form, answer, ANSWER), BOARD_NOT_GIVEN, 0, 0, 0, "a form of zeros");
    check_verdict(board_judge_prepared(&good, answer, 1), BOARD_CUT, 1, 0, 0, "the form itself, and a cut answer");
    check_verdict(board_judge_prepared(&good, answer, ANSWER), BOARD_PASS, 0, 0, 2, "the form itself");
}

/* `length` bytes are lent, one more lies behind them. */
static void check_evidence(size_t length, unsigned code, uint32_t at, const char *name)
{
    uint8_t buffer[ANSWER], due[ANSWER];
    memset(buffer, GUARD, sizeof buffer);
    memset(due, GUARD, sizeof due);
    if (code == BOARD_PASS)
        memcpy(due, answer + WITHOUT_EVIDENCE, ANSWER - WITHOUT_EVIDENCE);
    check_verdict(make_evidence(problem, PROBLEM, answer, WITHOUT_EVIDENCE, buffer, length), code, 0, 0, at, name);
    check(memcmp(buffer, due, sizeof buffer) == 0, name);
}

static void check_evidence_cases(void)
{
    uint8_t buffer[16], before[16];
    check_evidence(10, BOARD_PASS, 10, "evidence in 10 bytes");
    check_evidence(11, BOARD_PASS, 10, "evidence in 11 bytes");
    check_evidence(9, BOARD_BUFFER, 10, "evidence in 9 bytes");
    check_evidence(0, BOARD_BUFFER, 10, "evidence in no bytes");
    memset(buffer, GUARD, sizeof buffer);
    memset(before, GUARD, sizeof before);
    check_verdict(make_evidence(problem, PROBLEM, answer, ANSWER, buffer, 16), 8, 1, 4, 48, "evidence for an answer that has it");
    check_verdict(make_evidence(problem, PROBLEM, answer, 47, buffer, 16), 1, 1, 3, 44, "evidence for a cut answer");
    check(memcmp(buffer, before, sizeof buffer) == 0, "refused evidence writes nothing");
}

static void check_worked(void)
{
    for (int i = 0; i < worked_count; i++) {
        const struct worked *w = &worked_cases[i];
        struct files f;
        write_files(&w->claim, &f);
        check_verdict(judge(f.problem, f.problem_len, f.answer, f.answer_len), board_code(w->verdict), board_file(w->verdict),
                      board_record(w->verdict), board_at(w->verdict), w->name);
        check(judge_in_two(f.problem, f.problem_len, f.answer, f.answer_len) == w->verdict, w->name);
    }
}

/* P = 1, F = 0, C = 0 passes with a degree sum of 0 for every good p, order and shift. */
static void check_edge(uint32_t p, int order, int shift, const char *name)
{
    struct claim c = {.p = p, .m = 1, .n = 1, .order = {order}, .shift = {shift}, .length = {{1}}, .entry = {{{1}}}};
    struct files f;
    write_files(&c, &f);
    check_verdict(judge(f.problem, f.problem_len, f.answer, f.answer_len), BOARD_PASS, 0, 0, 0, name);
}

/*
 * A lab's claim: the identity of size two, F and C zero. It is the basis whatever the shifts are, because a zero entry takes no part in the
 * degree of its row. A pass with a degree sum of 0 is the number 0. With a row of zeros it is refused.
 */
static void check_identity(int first_shift, int second_shift, const char *name)
{
    struct claim c = {.p = 7, .m = 2, .n = 1, .order = {1}, .shift = {first_shift, second_shift}, .length = {{1, 0}, {0, 1}}};
    struct files f;
    c.entry[0][0][0] = c.entry[1][1][0] = 1;
    write_files(&c, &f);
    check(judge(f.problem, f.problem_len, f.answer, f.answer_len) == 0, name);
    c.length[1][1] = 0;
    write_files(&c, &f);
    check_verdict(judge(f.problem, f.problem_len, f.answer, f.answer_len), BOARD_NOT_REDUCED, 0, 0, 0, name);
}

/* The example with C = (0, last), and a row u and a point drawn. With last = 0 the second row is cut to X^2. */
static void check_drawing(uint8_t last, const uint32_t u[BOARD_DRAWN], uint32_t point, unsigned code, unsigned file, uint32_t at, const char *name)
{
    uint8_t a[ANSWER];
    memcpy(a, answer, ANSWER);
    a[ANSWER - 4] = last;
    check_verdict(judge_drawn(problem, PROBLEM, a, ANSWER, u, point), code, file, 0, at, name);
}

static void check_drawings(void)
{
    static const struct {
        uint8_t last;
        uint32_t u[BOARD_DRAWN], point;
        unsigned code, file;
        uint32_t at;
        const char *name;
    } cases[] = {
        {1, {1, 2, 0, 0}, 3, 0, 0, 0, "drawn: a true answer"},
        {1, {6, 6, 0, 0}, 6, 0, 0, 0, "drawn: the largest numbers"},
        {1, {0, 0, 0, 0}, 0, 0, 0, 0, "drawn: zeros"},
        {1, {1, 2, 7, UINT32_MAX}, 3, 0, 0, 0, "drawn: u from m on isn't read"},
        {0, {1, 2, 0, 0}, 3, BOARD_TURNED_AWAY, 0, 0, "drawn: a fault at the order"},
        {0, {1, 0, 0, 0}, 3, 0, 0, 0, "drawn: a row that does not show it"},
        {0, {1, 2, 0, 0}, 0, 0, 0, 0, "drawn: a point that does not show it"},
        {1, {7, 7, 0, 0}, 7, BOARD_DRAWN_LARGE, 2, 0, "drawn: the first too large"},
        {1, {6, 7, 0, 0}, 8, BOARD_DRAWN_LARGE, 2, 1, "drawn: the second too large"},
        {1, {6, 6, 9, 9}, 7, BOARD_DRAWN_LARGE, 2, 2, "drawn: the point too large"},
    };
    for (size_t i = 0; i < sizeof cases / sizeof *cases; i++)
        check_drawing(cases[i].last, cases[i].u, cases[i].point, cases[i].code, cases[i].file, cases[i].at, cases[i].name);
    check_verdict(judge_drawn(problem, PROBLEM, answer, ANSWER - 1, cases[7].u, 7), 1, 1, 4, 54, "drawn: 1 to 8 before 16");
    check_verdict(judge_drawn(problem, 0, answer, ANSWER, cases[7].u, 7), 1, 0, 0, 0, "drawn: problem empty");
}

static void check_stack(void)
{
    struct peak peak = peak_stack();
    check(0 < peak.judge && peak.judge < MOST_STACK, "judge takes less than 64 KiB of stack");
    check(0 < peak.make_evidence && peak.make_evidence < MOST_STACK, "make_evidence takes less than 64 KiB of stack");
    check(0 < peak.prepare && peak.prepare < MOST_STACK, "prepare takes less than 64 KiB of stack");
    check(0 < peak.judge_prepared && peak.judge_prepared < MOST_STACK, "judge_prepared takes less than 64 KiB of stack");
    check(0 < peak.judge_drawn && peak.judge_drawn < MOST_STACK, "judge_drawn takes less than 64 KiB of stack");
}

int main(void)
{
    check_variants();
    check_not_given();
    check_evidence_cases();
    check_worked();
    check_edge(2, 1, 0, "p = 2");
    check_edge(2147483647, 1, 0, "p = 2,147,483,647");
    check_edge(5, 16, 0, "order 16");
    check_edge(5, 1, -1000, "shift -1,000");
    check_edge(5, 1, 1000, "shift 1,000");
    check_identity(0, 5, "identity, shifts 0, 5");
    check_identity(5, 0, "identity, shifts 5, 0");
    check_identity(-1000, 1000, "identity, shifts -1,000, 1,000");
    check_drawings();
    check_stack();
    printf("%d passed, %d failed\n", passed, failed);
    return failed == 0 ? EXIT_SUCCESS : EXIT_FAILURE;
}
