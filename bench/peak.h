/* The most stack that one call of the board takes, measured over claims of every group. */
#ifndef PEAK_H
#define PEAK_H

#include <stddef.h>

struct peak {
    size_t judge;
    size_t make_evidence;
    size_t prepare;
    size_t judge_prepared;
    size_t judge_drawn;
};

struct peak peak_stack(void);

#endif
