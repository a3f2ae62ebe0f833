#include "files.h"

static uint8_t *put(uint8_t *at, uint32_t value, int width)
{
    for (int i = 0; i < width; i++)
        *at++ = (uint8_t)(value >> 8 * i);
    return at;
}

static uint8_t *put_mark(uint8_t *at, const char *mark)
{
    *at++ = (uint8_t)mark[0];
    *at++ = (uint8_t)mark[1];
    return at;
}

static uint8_t *put_problem(uint8_t *at, const struct claim *c)
{
    at = put(put_mark(at, "PR"), c->p, 4);
    at = put(put(at, (uint32_t)c->m, 1), (uint32_t)c->n, 1);
    at = put_mark(at, "OR");
    for (int j = 0; j < c->n; j++)
        at = put(at, (uint32_t)c->order[j], 1);
    at = put_mark(at, "SH");
    for (int i = 0; i < c->m; i++)
        at = put(at, (uint32_t)c->shift[i], 2);
    for (int j = 0; j < c->n; j++) {
        at = put(put_mark(at, "FC"), (uint32_t)j, 1);
        for (int i = 0; i < c->m; i++)
            for (int k = 0; k < c->order[j]; k++)
                at = put(at, c->f[i][j][k], 4);
    }
    return at;
}

static uint8_t *put_entries(uint8_t *at, const struct claim *c)
{
    for (int i = 0; i < c->m; i++)
        for (int j = 0; j < c->m; j++) {
            at = put(put(put_mark(at, "PE"), (uint32_t)i, 1), (uint32_t)j, 1);
            at = put(at, (uint32_t)c->length[i][j], 1);
            for (int k = 0; k < c->length[i][j]; k++)
                at = put(at, c->entry[i][j][k], 4);
        }
    return at;
}

static uint8_t *put_evidence(uint8_t *at, const struct claim *c)
{
    at = put_mark(at, "CE");
    for (int i = 0; i < c->m; i++)
        for (int j = 0; j < c->n; j++)
            at = put(at, c->evidence[i][j], 4);
    return at;
}

void write_answer(const struct claim *claim, uint8_t *answer)
{
    put_evidence(put_entries(answer, claim), claim);
}

size_t answer_bytes(const struct claim *claim)
{
    int coefficients = 0;
    for (int i = 0; i < claim->m; i++)
        for (int j = 0; j < claim->m; j++)
            coefficients += claim->length[i][j];
    return (size_t)(5 * claim->m * claim->m + 4 * coefficients + 2 + 4 * claim->m * claim->n);
}

void write_files(const struct claim *claim, struct files *files)
{
    files->problem_len = (size_t)(put_problem(files->problem, claim) - files->problem);
    uint8_t *entries_end = put_entries(files->answer, claim);
    files->answer_without = (size_t)(entries_end - files->answer);
    files->answer_len = (size_t)(put_evidence(entries_end, claim) - files->answer);
}
