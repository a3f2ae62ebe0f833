#include "peak.h"

#include "board.h"
#include "maker.h"
#include "stack.h"

enum { CLAIMS = 50 };

static struct files judged;

static void judge_once(void)
{
    judge(judged.problem, judged.problem_len, judged.answer, judged.answer_len);
}

static void make_evidence_once(void)
{
    static uint8_t buffer[BOARD_EVIDENCE_MOST];
    make_evidence(judged.problem, judged.problem_len, judged.answer, judged.answer_without, buffer, sizeof buffer);
}

static struct board_problem prepared;

static void prepare_once(void)
{
    board_prepare(judged.problem, judged.problem_len, &prepared);
}

static void judge_prepared_once(void)
{
    board_judge_prepared(&prepared, judged.answer, judged.answer_len);
}

static void judge_drawn_once(void)
{
    static const uint32_t u[BOARD_DRAWN] = {1, 1, 1, 1};
    judge_drawn(judged.problem, judged.problem_len, judged.answer, judged.answer_len, u, 1);
}

static void deepen(size_t *most, void (*call)(void))
{
    size_t depth = stack_depth(call);
    if (depth > *most)
        *most = depth;
}

struct peak peak_stack(void)
{
    static const enum group groups[] = {LARGEST, MIXED, SMALL, JOBS, DIAGONAL};
    struct peak most = {0, 0, 0, 0, 0};
    for (size_t g = 0; g < sizeof groups / sizeof *groups; g++)
        for (uint64_t i = 0; i < CLAIMS; i++) {
            make_files(groups[g], i, &judged);
            deepen(&most.judge, judge_once);
            deepen(&most.make_evidence, make_evidence_once);
            deepen(&most.prepare, prepare_once);
            deepen(&most.judge_prepared, judge_prepared_once);
            deepen(&most.judge_drawn, judge_drawn_once);
        }
    return most;
}
