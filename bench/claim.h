/* A claim: the problem and the answer as document 01 lays them out, read into plain arrays. */
#ifndef CLAIM_H
#define CLAIM_H

#include <stdbool.h>
#include <stddef.h>
#include <stdint.h>

enum {
    MOST_ROWS = 4,
    MOST_ORDER = 16,
    MOST_LENGTH = 17,
    MOST_SHIFT = 1000,
    LONGEST_PROBLEM = 1060,
    LONGEST_ANSWER = 1234,
    LONGEST_EVIDENCE = 2 + 4 * MOST_ROWS * MOST_ROWS,
};

struct claim {
    uint32_t p;
    int m, n;
    int order[MOST_ROWS];
    int shift[MOST_ROWS];
    uint32_t f[MOST_ROWS][MOST_ROWS][MOST_ORDER]; /* row, column, power */
    int length[MOST_ROWS][MOST_ROWS];
    uint32_t entry[MOST_ROWS][MOST_ROWS][MOST_LENGTH]; /* row, column, power: good below the entry's length */
    uint32_t evidence[MOST_ROWS][MOST_ROWS];
};

/* A verdict as the host gets it. */
uint64_t packed(unsigned code, unsigned file, unsigned record, size_t at);

/* Reads the problem alone, or the answer to one that was read. Each gives 0, or the packed refusal with code 1 to 8. */
uint64_t read_problem_alone(struct claim *claim, const uint8_t *problem, size_t problem_len, bool (*is_prime)(uint32_t));
uint64_t read_answer_alone(struct claim *claim, const uint8_t *answer, size_t answer_len, bool with_evidence);

/* Reads both files. Gives 0, or the packed refusal with code 1 to 8. Without evidence the answer ends after its last `PE`. */
uint64_t read_claim(struct claim *claim, const uint8_t *problem, size_t problem_len, const uint8_t *answer, size_t answer_len,
                    bool with_evidence, bool (*is_prime)(uint32_t));

#endif
