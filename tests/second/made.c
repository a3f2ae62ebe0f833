/*
 * Asks the archive for bases, as a C host would: for each one that the second program asks for, a line with the four numbers and the whole
 * buffer afterwards in hex.
 *
 *     made ASKED
 *
 * The problem and the bytes lent are in memory of exactly their lengths, and the problem has to stay as it was: if it does not, the line says
 * so. Exit status 1: the file can't be read or is cut.
 */
#include "board.h"

#include <inttypes.h>
#include <stdbool.h>
#include <stdio.h>
#include <stdlib.h>
#include <string.h>

enum { LENT = 170 };

static bool read_number(FILE *asked, uint32_t *number)
{
    uint8_t bytes[4];
    if (fread(bytes, 1, sizeof bytes, asked) != sizeof bytes)
        return false;
    *number = bytes[0] | (uint32_t)bytes[1] << 8 | (uint32_t)bytes[2] << 16 | (uint32_t)bytes[3] << 24;
    return true;
}

static uint8_t *room(size_t length)
{
    uint8_t *bytes = malloc(length + (length == 0));
    if (bytes == NULL)
        exit(1);
    return bytes;
}

static void print_made(uint64_t made, const uint8_t *lent, size_t lent_len)
{
    printf("made %u %u %u %" PRIu32, board_code(made), board_file(made), board_record(made), board_at(made));
    if (lent_len > 0)
        printf(" ");
    for (size_t i = 0; i < lent_len; i++)
        printf("%02x", lent[i]);
}

static bool run_asked(FILE *asked)
{
    uint32_t problem_len, steps, lent_len;
    if (!read_number(asked, &problem_len) || !read_number(asked, &steps) || !read_number(asked, &lent_len))
        return false;
    uint8_t *problem = room(problem_len), *before = room(problem_len), *lent = room(lent_len);
    bool whole = fread(problem, 1, problem_len, asked) == problem_len;
    if (whole) {
        memcpy(before, problem, problem_len);
        memset(lent, LENT, lent_len);
        print_made(make_basis(problem, problem_len, steps, lent, lent_len), lent, lent_len);
        printf("%s\n", memcmp(problem, before, problem_len) == 0 ? "" : " the problem was changed");
    }
    free(problem);
    free(before);
    free(lent);
    return whole;
}

int main(int argc, char **argv)
{
    FILE *asked = argc == 2 ? fopen(argv[1], "rb") : NULL;
    uint32_t count;
    if (asked == NULL || !read_number(asked, &count))
        return 1;
    for (uint32_t i = 0; i < count; i++)
        if (!run_asked(asked))
            return 1;
    fclose(asked);
    return 0;
}
