/* The judges that the board is held against. Each gives the packed verdict. */
#ifndef JUDGES_H
#define JUDGES_H

#include <stddef.h>
#include <stdint.h>

typedef uint64_t judge_function(const uint8_t *problem, size_t problem_len, const uint8_t *answer, size_t answer_len);

uint64_t plain_judge(const uint8_t *problem, size_t problem_len, const uint8_t *answer, size_t answer_len);
uint64_t plain_make_evidence(const uint8_t *problem, size_t problem_len, const uint8_t *answer, size_t answer_len, uint8_t *buffer,
                             size_t buffer_len);

uint64_t plain_judge_drawn(const uint8_t *problem, size_t problem_len, const uint8_t *answer, size_t answer_len, const uint32_t *u,
                           uint32_t point);

uint64_t flint_judge(const uint8_t *problem, size_t problem_len, const uint8_t *answer, size_t answer_len);

/* The board of an earlier state. */
uint64_t earlier_judge(const uint8_t *problem, size_t problem_len, const uint8_t *answer, size_t answer_len);

#endif
