#define _POSIX_C_SOURCE 200809L
#include "times.h"

#include <stdlib.h>
#include <time.h>

double microseconds(void)
{
    struct timespec now;
    clock_gettime(CLOCK_PROCESS_CPUTIME_ID, &now);
    return (double)now.tv_sec * 1e6 + (double)now.tv_nsec / 1e3;
}

double time_judge(judge_function *judge, const struct files *files, int claims, int repeats)
{
    double start = microseconds();
    for (int r = 0; r < repeats; r++)
        for (int i = 0; i < claims; i++)
            judge(files[i].problem, files[i].problem_len, files[i].answer, files[i].answer_len);
    return (microseconds() - start) / repeats / claims;
}

static int compare_doubles(const void *a, const void *b)
{
    double x = *(const double *)a, y = *(const double *)b;
    return (x > y) - (x < y);
}

double median(double *values)
{
    qsort(values, ROUNDS, sizeof *values, compare_doubles);
    return values[ROUNDS / 2];
}
