/* Times of calls: the process's own time, so that waiting for a processor does not count. */
#ifndef TIMES_H
#define TIMES_H

#include "files.h"
#include "judges.h"

enum { ROUNDS = 11 };

/* The process's time so far. */
double microseconds(void);

/* The time of one call, over `repeats` calls for each of the claims. */
double time_judge(judge_function *judge, const struct files *files, int claims, int repeats);

/* The median of as many values as there are rounds; it puts them in order. */
double median(double *values);

#endif
