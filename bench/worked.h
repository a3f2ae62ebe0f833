/* The judgements that document 01 works by hand. */
#ifndef WORKED_H
#define WORKED_H

#include "claim.h"

struct worked {
    const char *name;
    struct claim claim;
    uint64_t verdict;
};

extern const struct worked worked_cases[];
extern const int worked_count;

#endif
