/*
 * A host for the board: judges answers to one problem, makes the evidence for an answer that has none yet, tests an answer with drawn
 * numbers, or makes one.
 *
 *     host PROBLEM ANSWER...              prints for each answer a line `pass D` or `refuse CODE FILE RECORD AT`
 *     host --basis STEPS PROBLEM          makes an answer, prints `basis CODE FILE RECORD AT` and, where it was made, its bytes in hex
 *     host --evidence PROBLEM ANSWER      prints `evidence CODE FILE RECORD AT` and, where it was made, the record's bytes in hex
 *     host --drawn U... POINT PROBLEM ANSWER      prints `drawn CODE FILE RECORD AT`, for at most four numbers u and a point
 *
 * The problem is read once, however many answers there are. A file that can't be opened gives `nofile 0` (the problem, tried first) or, on
 * its line, `nofile 1` (an answer). So does one that isn't named, and one that can't be read, such as a folder. The exit status is 0 after
 * code 0, 1 after a refusal and 2 after `nofile`, and of several answers the largest.
 *
 *     (cd crates/board && rt lib)
 *     cc -std=c11 -Wall -Wextra -Wpedantic -Werror -Iinclude examples/host.c crates/board/out/libboard.a -o host
 */
#include "board.h"

#include <inttypes.h>
#include <stdbool.h>
#include <stdio.h>
#include <stdlib.h>
#include <string.h>

/* More than the longest file. A longer one is refused for the bytes that follow its last record, so the rest of it changes nothing. */
enum { READ_MOST = 16384 };

struct file {
    uint8_t bytes[READ_MOST];
    size_t length;
};

static bool read_file(const char *name, struct file *file)
{
    FILE *stream = name == NULL ? NULL : fopen(name, "rb");
    if (stream == NULL)
        return false;
    file->length = fread(file->bytes, 1, sizeof file->bytes, stream);
    bool good = ferror(stream) == 0;
    fclose(stream);
    return good;
}

static void print_numbers(const char *word, uint64_t verdict)
{
    printf("%s %u %u %u %" PRIu32, word, board_code(verdict), board_file(verdict), board_record(verdict), board_at(verdict));
}

static int print_verdict(uint64_t verdict)
{
    if (board_code(verdict) == BOARD_PASS) {
        printf("pass %" PRIu32 "\n", board_at(verdict));
        return 0;
    }
    print_numbers("refuse", verdict);
    printf("\n");
    return 1;
}

static int print_made(const char *word, uint64_t verdict, const uint8_t *bytes)
{
    bool made = board_code(verdict) == BOARD_PASS;
    print_numbers(word, verdict);
    for (uint32_t i = 0; made && i < board_at(verdict); i++)
        printf(" %02x", bytes[i]);
    printf("\n");
    return made ? 0 : 1;
}

static int no_answer(void)
{
    printf("nofile 1\n");
    return 2;
}

/* A problem that is refused refuses every answer to it. */
static int print_verdicts(const struct file *problem, char **names, int count)
{
    static struct file answer;
    static struct board_problem prepared;
    uint64_t read = board_prepare(problem->bytes, problem->length, &prepared);
    int worst = count == 0 ? no_answer() : 0;
    for (int i = 0; i < count; i++) {
        int status;
        if (!read_file(names[i], &answer))
            status = no_answer();
        else if (board_code(read) != BOARD_PASS)
            status = print_verdict(read);
        else
            status = print_verdict(board_judge_prepared(&prepared, answer.bytes, answer.length));
        if (status > worst)
            worst = status;
    }
    return worst;
}

static int print_evidence(const struct file *problem, const struct file *answer)
{
    uint8_t record[BOARD_EVIDENCE_MOST];
    uint64_t verdict = make_evidence(problem->bytes, problem->length, answer->bytes, answer->length, record, sizeof record);
    return print_made("evidence", verdict, record);
}

static int print_basis(const char *steps, const char *name)
{
    static struct file problem;
    uint8_t answer[BOARD_ANSWER_MOST];
    if (!read_file(name, &problem)) {
        printf("nofile 0\n");
        return 2;
    }
    uint64_t verdict = make_basis(problem.bytes, problem.length, (uint32_t)strtoul(steps, NULL, 10), answer, sizeof answer);
    return print_made("basis", verdict, answer);
}

/* The numbers are the words: some of u, the rest of which is 0, and the point. */
static int print_drawn(char **words, int count, const struct file *problem, const struct file *answer)
{
    uint32_t u[BOARD_DRAWN] = {0};
    for (int i = 0; i < count - 1 && i < BOARD_DRAWN; i++)
        u[i] = (uint32_t)strtoul(words[i], NULL, 10);
    uint32_t point = (uint32_t)strtoul(words[count - 1], NULL, 10);
    uint64_t drawn = judge_drawn(problem->bytes, problem->length, answer->bytes, answer->length, u, point);
    print_numbers("drawn", drawn);
    printf("\n");
    return board_code(drawn) == BOARD_PASS ? 0 : 1;
}

int main(int argc, char **argv)
{
    static struct file problem, answer;
    if (argc > 2 && strcmp(argv[1], "--basis") == 0)
        return print_basis(argv[2], argc > 3 ? argv[3] : NULL);
    bool evidence = argc > 1 && strcmp(argv[1], "--evidence") == 0;
    bool drawn = argc > 5 && strcmp(argv[1], "--drawn") == 0;
    int first = evidence ? 2 : drawn ? argc - 2 : 1;
    if (!read_file(argc > first ? argv[first] : NULL, &problem)) {
        printf("nofile 0\n");
        return 2;
    }
    if (!evidence && !drawn)
        return print_verdicts(&problem, argv + 2, argc - 2);
    if (!read_file(argc > first + 1 ? argv[first + 1] : NULL, &answer))
        return no_answer();
    return drawn ? print_drawn(argv + 2, argc - 4, &problem, &answer) : print_evidence(&problem, &answer);
}
