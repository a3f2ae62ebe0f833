/* Claims as files. */
#ifndef FILES_H
#define FILES_H

#include "claim.h"

/* Room for a claim of the largest sizes and some bytes more. */
struct files {
    size_t problem_len, answer_len, answer_without; /* the last: up to the end of the last `PE` */
    uint8_t problem[LONGEST_PROBLEM + 16];
    uint8_t answer[LONGEST_ANSWER + 16];
};

/* Lays a claim out in two files. It is not looked at: a claim that breaks the rules gives files that break them. */
void write_files(const struct claim *claim, struct files *files);

/* The answer alone, with its evidence, and how many bytes it has. */
void write_answer(const struct claim *claim, uint8_t *answer);
size_t answer_bytes(const struct claim *claim);

#endif
