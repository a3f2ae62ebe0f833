/*
 * The board's checks over FLINT, as a lab would write them: the reader is the plain one with FLINT's test of primes, everything after it
 * is FLINT's polynomials and matrices. F is set up only once the determinant is good, and each entry of the product is cut at the order:
 * both are faster than the whole product of the two matrices.
 */
#include "claim.h"
#include "judges.h"
#include "six.h"

#include <flint/nmod_mat.h>
#include <flint/nmod_poly.h>
#include <flint/nmod_poly_mat.h>
#include <flint/ulong_extras.h>

static bool is_prime(uint32_t p)
{
    return n_is_prime(p);
}

static void set_polynomial(nmod_poly_t f, const uint32_t *coefficients, int length)
{
    nmod_poly_fit_length(f, length);
    for (int k = 0; k < length; k++)
        f->coeffs[k] = coefficients[k];
    f->length = length;
    _nmod_poly_normalise(f);
}

struct row_degree {
    bool none;
    slong degree; /* for the shift; may be negative */
};

/* A zero entry has no degree and takes no part in its row's; a row of zeros has none. */
static struct row_degree row_degree(const struct claim *c, const nmod_poly_mat_t P, int i)
{
    struct row_degree row = {.none = true};
    for (int j = 0; j < c->m; j++) {
        slong degree = nmod_poly_degree(nmod_poly_mat_entry(P, i, j)) + c->shift[j];
        if (!nmod_poly_is_zero(nmod_poly_mat_entry(P, i, j)) && (row.none || degree > row.degree))
            row = (struct row_degree){.degree = degree};
    }
    return row;
}

static bool reduced(const struct claim *c, const nmod_poly_mat_t P)
{
    bool all = true;
    nmod_mat_t leading;
    nmod_mat_init(leading, c->m, c->m, c->p);
    for (int i = 0; i < c->m && all; i++) {
        struct row_degree row = row_degree(c, P, i);
        all = !row.none;
        for (int j = 0; j < c->m && all; j++)
            if (row.degree >= c->shift[j])
                nmod_mat_entry(leading, i, j) = nmod_poly_get_coeff_ui(nmod_poly_mat_entry(P, i, j), row.degree - c->shift[j]);
    }
    bool good = all && nmod_mat_det(leading) != 0;
    nmod_mat_clear(leading);
    return good;
}

static bool determinant_is_monomial(const struct claim *c, const nmod_poly_mat_t P)
{
    nmod_poly_t det;
    nmod_poly_init(det, c->p);
    nmod_poly_mat_det(det, P);
    slong top = nmod_poly_degree(det), k = 0;
    while (k < top && nmod_poly_get_coeff_ui(det, k) == 0)
        k++;
    nmod_poly_clear(det);
    return top >= 0 && k == top;
}

/* Entry (i, j) of PF up to the order of column j. */
static void product_entry(const struct claim *c, const nmod_poly_mat_t P, const nmod_poly_mat_t F, int i, int j, nmod_poly_t sum,
                          nmod_poly_t term)
{
    nmod_poly_zero(sum);
    for (int t = 0; t < c->m; t++) {
        nmod_poly_mullow(term, nmod_poly_mat_entry(P, i, t), nmod_poly_mat_entry(F, t, j), c->order[j] + 1);
        nmod_poly_add(sum, sum, term);
    }
}

static bool zero_below(const nmod_poly_t f, slong order)
{
    for (slong k = 0; k < order; k++)
        if (nmod_poly_get_coeff_ui(f, k) != 0)
            return false;
    return true;
}

static uint64_t product_fault(const struct claim *c, const nmod_poly_mat_t P, const nmod_poly_mat_t F)
{
    uint64_t below = 0, at_order = 0;
    nmod_poly_t sum, term;
    nmod_poly_init(sum, c->p);
    nmod_poly_init(term, c->p);
    for (int i = 0; i < c->m && below == 0; i++)
        for (int j = 0; j < c->n && below == 0; j++) {
            product_entry(c, P, F, i, j, sum, term);
            if (!zero_below(sum, c->order[j]))
                below = packed(11, 2, (unsigned)i, (size_t)j);
            else if (at_order == 0 && nmod_poly_get_coeff_ui(sum, c->order[j]) != c->evidence[i][j])
                at_order = packed(12, 2, (unsigned)i, (size_t)j);
        }
    nmod_poly_clear(sum);
    nmod_poly_clear(term);
    return below != 0 ? below : at_order;
}

static bool full_rank(const struct claim *c, const nmod_poly_mat_t P)
{
    nmod_mat_t beside;
    nmod_mat_init(beside, c->m, c->m + c->n, c->p);
    for (int i = 0; i < c->m; i++) {
        for (int j = 0; j < c->m; j++)
            nmod_mat_entry(beside, i, j) = nmod_poly_get_coeff_ui(nmod_poly_mat_entry(P, i, j), 0);
        for (int j = 0; j < c->n; j++)
            nmod_mat_entry(beside, i, c->m + j) = c->evidence[i][j];
    }
    bool good = nmod_mat_rank(beside) == c->m;
    nmod_mat_clear(beside);
    return good;
}

static void set_up_F(nmod_poly_mat_t F, const struct claim *c)
{
    nmod_poly_mat_init(F, c->m, c->n, c->p);
    for (int i = 0; i < c->m; i++)
        for (int j = 0; j < c->n; j++)
            set_polynomial(nmod_poly_mat_entry(F, i, j), c->f[i][j], c->order[j]);
}

/* F is set up here if it was not before. */
static uint64_t first_fault(const struct claim *c, const nmod_poly_mat_t P, const nmod_poly_mat_struct *kept)
{
    if (kept != NULL)
        return product_fault(c, P, kept);
    nmod_poly_mat_t F;
    set_up_F(F, c);
    uint64_t fault = product_fault(c, P, F);
    nmod_poly_mat_clear(F);
    return fault;
}

static uint64_t product_verdict(const struct claim *c, const nmod_poly_mat_t P, const nmod_poly_mat_struct *kept)
{
    uint64_t fault = first_fault(c, P, kept);
    if (fault != 0)
        return fault;
    if (!full_rank(c, P))
        return packed(13, 0, 0, 0);
    slong sum = 0; /* every row of a reduced P has a degree */
    for (int i = 0; i < c->m; i++)
        sum += row_degree(c, P, i).degree - c->shift[i];
    return packed(0, 0, 0, (size_t)sum);
}

static uint64_t claim_verdict(const struct claim *c, const nmod_poly_mat_struct *kept)
{
    uint64_t verdict;
    nmod_poly_mat_t P;
    nmod_poly_mat_init(P, c->m, c->m, c->p);
    for (int i = 0; i < c->m; i++)
        for (int j = 0; j < c->m; j++)
            set_polynomial(nmod_poly_mat_entry(P, i, j), c->entry[i][j], c->length[i][j]);
    if (!reduced(c, P))
        verdict = packed(9, 0, 0, 0);
    else if (!determinant_is_monomial(c, P))
        verdict = packed(10, 0, 0, 0);
    else
        verdict = product_verdict(c, P, kept);
    nmod_poly_mat_clear(P);
    return verdict;
}

uint64_t flint_judge(const uint8_t *problem, size_t problem_len, const uint8_t *answer, size_t answer_len)
{
    struct claim c;
    uint64_t refusal = read_claim(&c, problem, problem_len, answer, answer_len, true, is_prime);
    return refusal != 0 ? refusal : claim_verdict(&c, NULL);
}

void flint_six(const uint8_t *problem, size_t problem_len, const struct answer *answers, uint64_t *verdicts)
{
    struct claim c;
    uint64_t refusal = read_problem_alone(&c, problem, problem_len, is_prime);
    nmod_poly_mat_t F;
    if (refusal == 0)
        set_up_F(F, &c);
    for (int i = 0; i < SIX; i++) {
        verdicts[i] = refusal != 0 ? refusal : read_answer_alone(&c, answers[i].bytes, answers[i].length, true);
        if (verdicts[i] == 0)
            verdicts[i] = claim_verdict(&c, F);
    }
    if (refusal == 0)
        nmod_poly_mat_clear(F);
}
