#include "six.h"

#include "board.h"
#include "times.h"

#include <string.h>

void prepared_six(const uint8_t *problem, size_t problem_len, const struct answer *answers, uint64_t *verdicts)
{
    struct board_problem prepared;
    uint64_t refusal = board_prepare(problem, problem_len, &prepared);
    for (int i = 0; i < SIX; i++)
        verdicts[i] = refusal != 0 ? refusal : board_judge_prepared(&prepared, answers[i].bytes, answers[i].length);
}

void single_six(const uint8_t *problem, size_t problem_len, const struct answer *answers, uint64_t *verdicts)
{
    for (int i = 0; i < SIX; i++)
        verdicts[i] = judge(problem, problem_len, answers[i].bytes, answers[i].length);
}

void six_answers(const struct files *files, struct answer *answers)
{
    static uint8_t longer[sizeof files->answer + 1], changed[sizeof files->answer];
    size_t length = files->answer_len;
    memcpy(longer, files->answer, length);
    memcpy(changed, files->answer, length);
    longer[length] = 0;
    if (length > 0)
        changed[length - 1] ^= 1;
    answers[0] = answers[2] = answers[4] = (struct answer){files->answer, length};
    answers[1] = (struct answer){files->answer, length / 2};
    answers[3] = (struct answer){longer, length + 1};
    answers[5] = (struct answer){changed, length};
}

int six_differences(six_function *one, six_function *other, const struct files *files, int claims)
{
    int differences = 0;
    for (int i = 0; i < claims; i++) {
        struct answer answers[SIX];
        uint64_t verdicts[2][SIX];
        six_answers(&files[i], answers);
        one(files[i].problem, files[i].problem_len, answers, verdicts[0]);
        other(files[i].problem, files[i].problem_len, answers, verdicts[1]);
        differences += memcmp(verdicts[0], verdicts[1], sizeof *verdicts) != 0;
    }
    return differences;
}

double time_six(six_function *judge, const struct files *files, int claims, int repeats)
{
    double time = 0;
    for (int i = 0; i < claims; i++) {
        struct answer answers[SIX];
        uint64_t verdicts[SIX];
        six_answers(&files[i], answers);
        double start = microseconds();
        for (int r = 0; r < repeats; r++)
            judge(files[i].problem, files[i].problem_len, answers, verdicts);
        time += microseconds() - start;
    }
    return time / repeats / claims;
}
