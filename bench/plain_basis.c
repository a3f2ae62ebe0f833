/*
 * The board's making of bases in plain C, written from the client's rules alone. Residuals are worked out anew in each step from P and F, with
 * a division for each product, or with one for each sum of them. Orders are cut before the first step: a step looks at no power that is cut
 * off.
 */
#include "bases.h"
#include "files.h"
#include "plain.h"

#include <string.h>

static uint32_t multiply_add(uint32_t sum, uint32_t a, uint32_t b, uint32_t p)
{
    return (uint32_t)((sum + (uint64_t)a * b) % p);
}

typedef uint32_t coefficient_function(const struct claim *c, int i, int j, int power);

/* The coefficient of PF. */
static uint32_t divided_often(const struct claim *c, int i, int j, int power)
{
    uint32_t sum = 0;
    for (int t = 0; t < c->m; t++)
        for (int k = power < c->order[j] ? 0 : power - c->order[j] + 1; k <= power && k < c->length[i][t]; k++)
            sum = multiply_add(sum, c->entry[i][t][k], c->f[t][j][power - k], c->p);
    return sum;
}

/* The rows, lowest degree first, ties by row number. */
static void sort_rows(const int *degree, int m, int *sorted)
{
    for (int i = 0; i < m; i++) {
        int at = i;
        for (; at > 0 && degree[sorted[at - 1]] > degree[i]; at--)
            sorted[at] = sorted[at - 1];
        sorted[at] = i;
    }
}

/*
 * Elimination on copies of the residuals, with the constants carried along: what is left of a pivot's residual, the first column in which
 * it is not 0, the inverse of that number, and the combination of rows that leaves it. The rows themselves stay as they are.
 */
struct left {
    uint32_t residual[MOST_ROWS], row[MOST_ROWS], inverse;
    int column;
};

static void subtract(struct left *left, const struct left *pivot, uint32_t p)
{
    uint32_t quotient = multiply_add(0, left->residual[pivot->column], pivot->inverse, p);
    for (int j = 0; quotient != 0 && j < MOST_ROWS; j++) {
        left->residual[j] = multiply_add(left->residual[j], p - quotient, pivot->residual[j], p);
        left->row[j] = multiply_add(left->row[j], p - quotient, pivot->row[j], p);
    }
}

void choose(uint32_t p, int m, int n, const int *degree, uint32_t residual[MOST_ROWS][MOST_ROWS], struct choice *choice)
{
    struct left pivots[MOST_ROWS];
    int sorted[MOST_ROWS], count = 0;
    memset(choice, 0, sizeof *choice);
    sort_rows(degree, m, sorted);
    for (int a = 0; a < m; a++) {
        int i = sorted[a];
        struct left left = {.row = {0}};
        memcpy(left.residual, residual[i], sizeof left.residual);
        left.row[i] = 1;
        for (int q = 0; q < count; q++)
            subtract(&left, &pivots[q], p);
        while (left.column < n && left.residual[left.column] == 0)
            left.column++;
        choice->pivot[i] = left.column < n;
        if (choice->pivot[i]) {
            left.inverse = inverse(left.residual[left.column], p);
            pivots[count++] = left;
        } else {
            memcpy(choice->multiplier[i], left.row, sizeof left.row);
            choice->multiplier[i][i] = 0;
        }
    }
}

int cut_orders(struct claim *c, uint32_t steps)
{
    int done = 0;
    for (int j = 0; j < c->n; j++) {
        if (steps < (uint32_t)c->order[j])
            c->order[j] = (int)steps;
        if (done < c->order[j])
            done = c->order[j];
    }
    return done;
}

uint64_t put_basis(const struct claim *c, int done, uint8_t *buffer, size_t buffer_len)
{
    size_t needed = answer_bytes(c);
    if (buffer_len < needed)
        return packed(14, 0, 0, needed);
    write_answer(c, buffer);
    return packed(0, 0, (unsigned)done, needed);
}

/* Row i plus `factor` times row t, up to the power given. */
static void add_row(struct claim *c, int i, int t, uint32_t factor, int most)
{
    for (int j = 0; j < c->m; j++)
        for (int k = 0; k <= most; k++)
            c->entry[i][j][k] = multiply_add(c->entry[i][j][k], factor, c->entry[t][j][k], c->p);
}

static void row_times_x(struct claim *c, int i)
{
    for (int j = 0; j < c->m; j++) {
        memmove(c->entry[i][j] + 1, c->entry[i][j], sizeof c->entry[i][j] - sizeof c->entry[i][j][0]);
        c->entry[i][j][0] = 0;
    }
}

/* The entries have k + 1 coefficients before the step, some of which may be 0 at the end. */
static void order_step(struct claim *c, int k, int *degree, coefficient_function *coefficient)
{
    uint32_t residual[MOST_ROWS][MOST_ROWS] = {{0}};
    struct choice choice;
    for (int i = 0; i < c->m; i++)
        for (int j = 0; j < c->n; j++)
            if (k < c->order[j])
                residual[i][j] = coefficient(c, i, j, k);
    choose(c->p, c->m, c->n, degree, residual, &choice);
    for (int i = 0; i < c->m; i++)
        for (int t = 0; t < c->m; t++)
            if (choice.multiplier[i][t] != 0)
                add_row(c, i, t, choice.multiplier[i][t], k);
    for (int i = 0; i < c->m; i++)
        if (choice.pivot[i]) {
            row_times_x(c, i);
            degree[i]++;
        }
    for (int i = 0; i < c->m; i++)
        for (int j = 0; j < c->m; j++)
            c->length[i][j]++;
}

static void set_lengths_and_evidence(struct claim *c, coefficient_function *coefficient)
{
    for (int i = 0; i < c->m; i++) {
        for (int j = 0; j < c->m; j++)
            while (c->length[i][j] > 0 && c->entry[i][j][c->length[i][j] - 1] == 0)
                c->length[i][j]--;
        for (int j = 0; j < c->n; j++)
            c->evidence[i][j] = coefficient(c, i, j, c->order[j]);
    }
}

static uint64_t make(const uint8_t *problem, size_t problem_len, uint32_t steps, uint8_t *buffer, size_t buffer_len,
                     coefficient_function *coefficient)
{
    struct claim c;
    uint64_t refusal = read_problem_alone(&c, problem, problem_len, is_prime);
    if (refusal != 0)
        return refusal;
    int done = cut_orders(&c, steps), degree[MOST_ROWS];
    memset(c.entry, 0, sizeof c.entry);
    for (int i = 0; i < c.m; i++) {
        c.entry[i][i][0] = 1;
        degree[i] = c.shift[i];
        for (int j = 0; j < c.m; j++)
            c.length[i][j] = 1;
    }
    for (int k = 0; k < done; k++)
        order_step(&c, k, degree, coefficient);
    set_lengths_and_evidence(&c, coefficient);
    return put_basis(&c, done, buffer, buffer_len);
}

uint64_t plain_make_basis(const uint8_t *problem, size_t problem_len, uint32_t steps, uint8_t *buffer, size_t buffer_len)
{
    return make(problem, problem_len, steps, buffer, buffer_len, divided_often);
}

uint64_t summed_make_basis(const uint8_t *problem, size_t problem_len, uint32_t steps, uint8_t *buffer, size_t buffer_len)
{
    return make(problem, problem_len, steps, buffer, buffer_len, product_at);
}
