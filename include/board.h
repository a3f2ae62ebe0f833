/*
 * The acceptance board, for a host that is written in C or C++.
 *
 * Link with libboard.a. Every answer is one 64-bit number that packs four:
 *
 *     code + 256 * file + 65536 * record + 4294967296 * at
 *
 * Take it apart with board_code, board_file, board_record and board_at. The code says what was found, the other three say where:
 *
 *     code        file                    record               at
 *     0           0                       0                    judge, judge_prepared: the degree sum; make_evidence: the bytes
 *                                                              written; prepare: 0
 *     0           0                       steps done           make_basis: the bytes written
 *     1 to 8      0 problem, 1 answer     record, from 0       offset of the field in that file, from 0
 *     9, 10, 13,  0                       0                    0
 *     20
 *     11, 12      2                       row, from 0          column, from 0
 *     14          0                       0                    bytes needed
 *     16          2                       0                    judge_drawn: the number's place, u from 0, the point m
 *     255         0                       0                    judge_drawn: 0, and it is no verdict
 *
 * In every function:
 * - the files, and the numbers of u, are only read, and bytes outside the lengths given, and outside a prepared problem, are neither read nor
 *   written;
 * - a length may be 0, the pointer is never NULL;
 * - nothing is kept between calls and no memory is asked for, so that calls from several threads do not meet.
 *
 * That the verdicts are those of the client's rules, for all files, is proved of the library's source.
 */
#ifndef BOARD_H
#define BOARD_H

#include <stddef.h>
#include <stdint.h>

#ifdef __cplusplus
extern "C" {
#endif

/* What was found. The first that applies is given: 1 to 8 in reading order, then the others by number. */
enum board_verdict {
    BOARD_PASS = 0,         /* the answer is a reduced basis for the problem; or the evidence, or the answer, is made */
    BOARD_CUT = 1,          /* a field runs past the end of its file */
    BOARD_MARK = 2,         /* a record does not start with the mark that is due */
    BOARD_SIZE = 3,         /* m, n, an order, a shift or a count of coefficients is outside its size */
    BOARD_PRIME = 4,        /* p is not a prime from 2 to 2147483647 */
    BOARD_NUMBER = 5,       /* a row or column number is not the one that is due */
    BOARD_RANGE = 6,        /* a coefficient, or a number of the evidence, is p or more */
    BOARD_LAST_ZERO = 7,    /* the last coefficient of an entry is 0 */
    BOARD_SURPLUS = 8,      /* bytes after the last record */
    BOARD_NOT_REDUCED = 9,  /* the answer's matrix P is not reduced for the shift; with a row of zeros it never is */
    BOARD_DETERMINANT = 10, /* the determinant of P is not a nonzero constant times a power of X */
    BOARD_PRODUCT = 11,     /* P times F has a coefficient other than 0 below the order */
    BOARD_EVIDENCE = 12,    /* the evidence C differs from the coefficient of P times F at the order */
    BOARD_RANK = 13,        /* the rank of P(0) with C beside it is too low: P generates too little */
    BOARD_BUFFER = 14,      /* make_evidence and make_basis: the buffer is too short, `at` has the bytes needed */
    BOARD_DRAWN_LARGE = 16, /* judge_drawn only: a drawn number is p or more */
    BOARD_NOT_GIVEN = 20,   /* judge_prepared only: no problem file gives this prepared problem; the answer was not looked at */
    BOARD_TURNED_AWAY = 255 /* judge_drawn only, and no verdict: P times F has a fault of 11 or 12 */
};

/* The most bytes that make_evidence writes: a buffer of this length is never too short. */
#define BOARD_EVIDENCE_MOST 66
/* The same of make_basis. */
#define BOARD_ANSWER_MOST 1234

/* The numbers of u in judge_drawn. */
#define BOARD_DRAWN 4

/* The most rows and columns of a problem, and its largest order. */
enum { BOARD_ROWS = 4, BOARD_ORDER = 16 };

/*
 * A problem that was read, for judging several answers to it. Fill it with board_prepare and hand it to board_judge_prepared as it is. Every
 * number counts, also those that the problem does not use, which are 0: a form that no problem file gives is refused by code 20, whatever
 * it holds. It may be copied and kept, and several threads may judge against the same one.
 */
struct board_problem {
    uint32_t p;
    size_t m, n;
    size_t orders[BOARD_ROWS];
    int32_t shifts[BOARD_ROWS];
    uint32_t f[BOARD_ROWS * BOARD_ROWS * BOARD_ORDER];
};

/* Judges an answer to a problem, both as whole files in memory, and returns the verdict. */
uint64_t judge(const uint8_t *problem, size_t problem_len, const uint8_t *answer, size_t answer_len);

/*
 * Makes an answer to a problem, order step by order step, and stops after `steps` of them or when the largest order is reached. With code 0
 * the buffer starts with the answer's file, `record` is the number of steps done, `at` is the file's length, and every byte after it is as
 * before. With any other code, 1 to 8 of the problem or 14, every byte of the buffer is as before. With all steps done the judge passes the
 * answer. With fewer, at least one, it passes it for the same problem with each order replaced by the smaller of it and the steps done, and F
 * cut to match; with none the answer is the identity, and nothing is claimed of it. The buffer shares no byte with the problem.
 */
uint64_t make_basis(const uint8_t *problem, size_t problem_len, uint32_t steps, uint8_t *buffer, size_t buffer_len);

/*
 * Makes the record `CE` for an answer that ends after its last record `PE`. With code 0 the buffer starts with the record, `at` is its
 * length, and every byte after it is as before. With any other code every byte of the buffer is as before. The answer is only read, not
 * judged: codes 9 to 13 are never given. The buffer shares no byte with the two files.
 */
uint64_t make_evidence(const uint8_t *problem, size_t problem_len, const uint8_t *answer, size_t answer_len, uint8_t *buffer,
                       size_t buffer_len);

/*
 * Tests the product of an answer to a problem with drawn numbers, faster than the judge: u, of which those from m on aren't read, and a point,
 * all of them below p. Code 0, "may pass": no fault of 11 or 12 was seen. That is NOT a pass: other numbers may show one, and nothing else is
 * looked at. Code 255, "turned away": there is a fault of 11 or 12. An answer without such a fault is never turned away; with one, for a u that
 * shows it, at most 16 of the p points give code 0. Otherwise codes 1 to 8 and then 16; the verdict is the judge's alone.
 */
uint64_t judge_drawn(const uint8_t *problem, size_t problem_len, const uint8_t *answer, size_t answer_len, const uint32_t *u, uint32_t point);

/* The calls behind board_prepare and board_judge_prepared, with the parts of a struct board_problem one by one; no two parts share a byte. */
uint64_t prepare(const uint8_t *problem, size_t problem_len, uint32_t *p, size_t *m, size_t *n, size_t *orders, int32_t *shifts, uint32_t *f);
uint64_t judge_prepared(uint32_t p, size_t m, size_t n, const size_t *orders, const int32_t *shifts, const uint32_t *f, const uint8_t *answer,
                        size_t answer_len);

/*
 * Reads a problem for judging several answers to it. With code 0 every number of `prepared` is written. With any other code, 1 to 8, not a
 * byte of it is.
 */
static inline uint64_t board_prepare(const uint8_t *problem, size_t problem_len, struct board_problem *prepared)
{
    return prepare(problem, problem_len, &prepared->p, &prepared->m, &prepared->n, prepared->orders, prepared->shifts, prepared->f);
}

/*
 * Judges an answer to a prepared problem. The verdict is the one that `judge` gives on the problem's file and the answer; or code 20, if no
 * problem file gives `prepared`.
 */
static inline uint64_t board_judge_prepared(const struct board_problem *prepared, const uint8_t *answer, size_t answer_len)
{
    return judge_prepared(prepared->p, prepared->m, prepared->n, prepared->orders, prepared->shifts, prepared->f, answer, answer_len);
}

/* What was found: a number of `enum board_verdict`. */
static inline unsigned board_code(uint64_t verdict)
{
    return (unsigned)(verdict & 0xFF);
}

/* Where: 0 the problem, 1 the answer, 2 the product of P and F. */
static inline unsigned board_file(uint64_t verdict)
{
    return (unsigned)(verdict >> 8 & 0xFF);
}

/* Where: the record in the file, or the row in the product; or the steps done by make_basis. */
static inline unsigned board_record(uint64_t verdict)
{
    return (unsigned)(verdict >> 16 & 0xFFFF);
}

/* Where: the offset in the file, or the column in the product; or a degree sum, or a number of bytes (see above). */
static inline uint32_t board_at(uint64_t verdict)
{
    return (uint32_t)(verdict >> 32);
}

#ifdef __cplusplus
}
#endif

#endif
