/*
 * The making of bases over FLINT, as a lab would write it: P and the product of P and the cut F are matrices of FLINT's polynomials, and each
 * step is made on both. The choice of a step, on a few constants, is the plain one.
 */
#include "bases.h"

#include <flint/nmod_poly.h>
#include <flint/nmod_poly_mat.h>
#include <flint/ulong_extras.h>

static bool is_prime(uint32_t p)
{
    return n_is_prime(p);
}

/* Row i plus `factor` times row t. */
static void add_row(nmod_poly_mat_t M, int i, int t, uint32_t factor)
{
    for (slong j = 0; j < nmod_poly_mat_ncols(M); j++)
        nmod_poly_scalar_addmul_nmod(nmod_poly_mat_entry(M, i, j), nmod_poly_mat_entry(M, t, j), factor);
}

/* The zero polynomial is left as it is: shifted, it would get a coefficient 0. */
static void row_times_x(nmod_poly_mat_t M, int i)
{
    for (slong j = 0; j < nmod_poly_mat_ncols(M); j++) {
        nmod_poly_struct *entry = nmod_poly_mat_entry(M, i, j);
        if (!nmod_poly_is_zero(entry))
            nmod_poly_shift_left(entry, entry, 1);
    }
}

static void order_step(const struct claim *c, int k, int *degree, nmod_poly_mat_t P, nmod_poly_mat_t product)
{
    uint32_t residual[MOST_ROWS][MOST_ROWS] = {{0}};
    struct choice choice;
    for (int i = 0; i < c->m; i++)
        for (int j = 0; j < c->n; j++)
            if (k < c->order[j])
                residual[i][j] = (uint32_t)nmod_poly_get_coeff_ui(nmod_poly_mat_entry(product, i, j), k);
    choose(c->p, c->m, c->n, degree, residual, &choice);
    for (int i = 0; i < c->m; i++)
        for (int t = 0; t < c->m; t++)
            if (choice.multiplier[i][t] != 0) {
                add_row(P, i, t, choice.multiplier[i][t]);
                add_row(product, i, t, choice.multiplier[i][t]);
            }
    for (int i = 0; i < c->m; i++)
        if (choice.pivot[i]) {
            row_times_x(P, i);
            row_times_x(product, i);
            for (int j = 0; j < c->n; j++)
                nmod_poly_truncate(nmod_poly_mat_entry(product, i, j), c->order[j] + 1);
            degree[i]++;
        }
}

static void start(const struct claim *c, nmod_poly_mat_t P, nmod_poly_mat_t product)
{
    nmod_poly_mat_init(P, c->m, c->m, c->p);
    nmod_poly_mat_one(P);
    nmod_poly_mat_init(product, c->m, c->n, c->p);
    for (int i = 0; i < c->m; i++)
        for (int j = 0; j < c->n; j++) {
            nmod_poly_struct *f = nmod_poly_mat_entry(product, i, j);
            nmod_poly_fit_length(f, c->order[j] + 1);
            for (int k = 0; k < c->order[j]; k++)
                f->coeffs[k] = c->f[i][j][k];
            f->length = c->order[j];
            _nmod_poly_normalise(f);
        }
}

static void take_answer(struct claim *c, const nmod_poly_mat_t P, const nmod_poly_mat_t product)
{
    for (int i = 0; i < c->m; i++) {
        for (int j = 0; j < c->m; j++) {
            const nmod_poly_struct *entry = nmod_poly_mat_entry(P, i, j);
            c->length[i][j] = (int)entry->length;
            for (slong k = 0; k < entry->length; k++)
                c->entry[i][j][k] = (uint32_t)entry->coeffs[k];
        }
        for (int j = 0; j < c->n; j++)
            c->evidence[i][j] = (uint32_t)nmod_poly_get_coeff_ui(nmod_poly_mat_entry(product, i, j), c->order[j]);
    }
}

uint64_t flint_make_basis(const uint8_t *problem, size_t problem_len, uint32_t steps, uint8_t *buffer, size_t buffer_len)
{
    struct claim c;
    uint64_t refusal = read_problem_alone(&c, problem, problem_len, is_prime);
    if (refusal != 0)
        return refusal;
    int done = cut_orders(&c, steps), degree[MOST_ROWS];
    nmod_poly_mat_t P, product;
    start(&c, P, product);
    for (int i = 0; i < c.m; i++)
        degree[i] = c.shift[i];
    for (int k = 0; k < done; k++)
        order_step(&c, k, degree, P, product);
    take_answer(&c, P, product);
    nmod_poly_mat_clear(P);
    nmod_poly_mat_clear(product);
    return put_basis(&c, done, buffer, buffer_len);
}
