/*
 * The archive's bases as a C host asks for them: document 01's example with every number of steps and every number of bytes lent about the
 * one needed; refused calls, which write no byte; what the judge says of a basis, also for a problem cut to the steps done; the largest
 * problems; and how deep a call goes into the stack. Each check prints a line only if it fails; the last line is the tally.
 */
#include "board.h"
#include "check.h"
#include "maker.h"
#include "stack.h"

#include <stdlib.h>
#include <string.h>

enum { LENT = BOARD_ANSWER_MOST + 16, MOST_MADE = 64, LARGEST_PROBLEMS = 32 };

/* What is due of the example, by the steps allowed. */
static const struct {
    uint32_t steps;
    unsigned done;
    size_t length;
    uint8_t bytes[MOST_MADE];
} made[] = {
    {0, 0, 38,
     {0x50, 0x45, 0, 0, 1, 1, 0, 0, 0, 0x50, 0x45, 0, 1, 0, 0x50, 0x45, 1, 0, 0, 0x50, 0x45, 1, 1, 1, 1, 0, 0, 0, /* 1, 0; 0, 1 */
      0x43, 0x45, 0, 0, 0, 0, 0, 0, 0, 0}},
    {1, 1, 46,
     {0x50, 0x45, 0, 0, 2, 0, 0, 0, 0, 1, 0, 0, 0, 0x50, 0x45, 0, 1, 0,                       /* X, 0 */
      0x50, 0x45, 1, 0, 1, 6, 0, 0, 0, 0x50, 0x45, 1, 1, 1, 1, 0, 0, 0,                       /* 6, 1 */
      0x43, 0x45, 1, 0, 0, 0, 0, 0, 0, 0}},
    {2, 2, 58,
     {0x50, 0x45, 0, 0, 2, 1, 0, 0, 0, 1, 0, 0, 0, 0x50, 0x45, 0, 1, 1, 6, 0, 0, 0,           /* 1 + X, 6 */
      0x50, 0x45, 1, 0, 2, 0, 0, 0, 0, 6, 0, 0, 0, 0x50, 0x45, 1, 1, 2, 0, 0, 0, 0, 1, 0, 0, 0, /* 6X, X */
      0x43, 0x45, 0, 0, 0, 0, 1, 0, 0, 0}},
};

enum { MADE = sizeof made / sizeof *made };

static uint8_t buffer[LENT], due[LENT];

/* `length` bytes are lent, and more lie behind them: all of the buffer is compared, and the problem has to stay. */
static void check_length(uint32_t steps, int k, size_t length, const char *name)
{
    uint8_t asked[PROBLEM];
    bool room = made[k].length <= length;
    memcpy(asked, problem, PROBLEM);
    memset(buffer, GUARD, sizeof buffer);
    memset(due, GUARD, sizeof due);
    if (room)
        memcpy(due, made[k].bytes, made[k].length);
    uint64_t got = make_basis(asked, PROBLEM, steps, buffer, length);
    check_verdict(got, room ? BOARD_PASS : BOARD_BUFFER, 0, room ? made[k].done : 0, (uint32_t)made[k].length, name);
    check(memcmp(buffer, due, sizeof buffer) == 0 && memcmp(asked, problem, PROBLEM) == 0, name);
}

static void check_lengths(void)
{
    static const uint32_t more[] = {3, 16, 17, 255, 256, 65536, 2147483648, 4294967295};
    for (int k = 0; k < MADE; k++)
        for (size_t length = 0; length <= made[k].length + 8; length++)
            check_length(made[k].steps, k, length, "the example, every number of bytes lent");
    for (size_t i = 0; i < sizeof more / sizeof *more; i++)
        for (size_t length = made[2].length - 1; length <= made[2].length + 1; length++)
            check_length(more[i], 2, length, "the example, more steps than there are");
}

/* The judge passes what is made, and after one step it does for the problem of order 1, whose F has the first coefficients alone. */
static void check_judged(void)
{
    static const uint8_t cut[] = {0x50, 0x52, 7, 0, 0, 0, 2, 1, 0x4F, 0x52, 1, 0x53, 0x48, 0, 0, 0, 0, 0x46, 0x43, 0, 1, 0, 0, 0, 1, 0, 0, 0};
    check_verdict(judge(problem, PROBLEM, made[2].bytes, made[2].length), BOARD_PASS, 0, 0, 2, "the basis of the example is judged");
    check_verdict(judge(cut, sizeof cut, made[1].bytes, made[1].length), BOARD_PASS, 0, 0, 1, "that of one step, for the cut problem");
    check(board_code(judge(problem, PROBLEM, made[1].bytes, made[1].length)) != BOARD_PASS, "that of one step, for the whole problem");
}

/* The example with a byte changed, or of another length: refused, whatever is lent, and before the buffer's length is looked at. */
static void check_refused(size_t at, uint8_t byte, size_t length, unsigned code, unsigned record, uint32_t place, const char *name)
{
    static const size_t lent[] = {0, 1, 57, 58, LENT};
    uint8_t asked[PROBLEM + 1] = {0};
    memcpy(asked, problem, PROBLEM);
    asked[at] = byte;
    memset(due, GUARD, sizeof due);
    for (size_t i = 0; i < sizeof lent / sizeof *lent; i++) {
        memset(buffer, GUARD, sizeof buffer);
        check_verdict(make_basis(asked, length, 2, buffer, lent[i]), code, 0, record, place, name);
        check(memcmp(buffer, due, sizeof buffer) == 0, "a refused call writes nothing");
    }
}

static void check_refusals(void)
{
    check_refused(0, 0x50, 0, BOARD_CUT, 0, 0, "no problem");
    check_refused(0, 0x50, PROBLEM - 1, BOARD_CUT, 3, 32, "problem less its last byte");
    check_refused(8, 0x52, PROBLEM, BOARD_MARK, 1, 8, "mark of OR");
    check_refused(6, 5, PROBLEM, BOARD_SIZE, 0, 6, "m = 5");
    check_refused(7, 0, PROBLEM, BOARD_SIZE, 0, 7, "n = 0");
    check_refused(10, 17, PROBLEM, BOARD_SIZE, 1, 10, "order 17");
    check_refused(14, 0x80, PROBLEM, BOARD_SIZE, 2, 13, "shift -32,768");
    check_refused(2, 9, PROBLEM, BOARD_PRIME, 0, 2, "p = 9");
    check_refused(19, 1, PROBLEM, BOARD_NUMBER, 3, 19, "column number");
    check_refused(20, 7, PROBLEM, BOARD_RANGE, 3, 20, "first coefficient 7");
    check_refused(PROBLEM, 0, PROBLEM + 1, BOARD_SURPLUS, 4, 36, "one byte more");
}

static struct files largest;

static void make_once(void)
{
    make_basis(largest.problem, largest.problem_len, UINT32_MAX, buffer, sizeof buffer);
}

/* Made in a buffer of each length about the one needed: the same bytes, and none behind them; the judge passes them. */
static void check_largest(uint64_t number)
{
    make_files(LARGEST, number, &largest);
    memset(due, GUARD, sizeof due);
    uint64_t first = make_basis(largest.problem, largest.problem_len, UINT32_MAX, due, BOARD_ANSWER_MOST);
    size_t needed = board_at(first);
    check(board_code(first) == BOARD_PASS && board_record(first) == 16 && needed <= BOARD_ANSWER_MOST, "a largest basis is made");
    check(board_code(judge(largest.problem, largest.problem_len, due, needed)) == BOARD_PASS, "a largest basis is judged");
    for (size_t length = needed - 3; length < needed + 3; length++) {
        memset(buffer, GUARD, sizeof buffer);
        uint64_t got = make_basis(largest.problem, largest.problem_len, 16, buffer, length);
        check(length < needed ? got == ((uint64_t)needed << 32 | BOARD_BUFFER) : got == first, "a largest basis, the four numbers");
        size_t kept = length < needed ? 0 : needed;
        check(memcmp(buffer, due, kept) == 0, "a largest basis, the bytes written");
        for (size_t i = kept; i < sizeof buffer; i++)
            if (buffer[i] != GUARD) {
                check(false, "a largest basis, the bytes behind");
                break;
            }
    }
}

int main(void)
{
    check_lengths();
    check_judged();
    check_refusals();
    for (uint64_t number = 0; number < LARGEST_PROBLEMS; number++)
        check_largest(number);
    size_t stack = stack_depth(make_once);
    check(0 < stack && stack < MOST_STACK, "make_basis takes less than 64 KiB of stack");
    printf("%d passed, %d failed\n", passed, failed);
    return failed == 0 ? EXIT_SUCCESS : EXIT_FAILURE;
}
