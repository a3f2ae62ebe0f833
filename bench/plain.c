/*
 * The board's checks in plain C, written from the client's rules alone: what the board is held against for verdicts and for speed.
 *
 * Residues are below p < 2^31, so a product is below p * p < 2^62. Sums of products are kept below p * p by a subtraction and divided
 * once at the end.
 */
#include "claim.h"
#include "judges.h"
#include "plain.h"

#include <string.h>

enum { MOST_DETERMINANT = MOST_ROWS * (MOST_LENGTH - 1) + 1, MOST_COLUMNS = 2 * MOST_ROWS };

struct polynomial {
    int length;
    uint32_t at[MOST_DETERMINANT];
};

struct row_degree {
    bool none;
    int degree; /* for the shift; may be negative */
};

static uint32_t power(uint32_t base, uint32_t exponent, uint32_t p)
{
    uint64_t square = base % p, result = 1;
    for (; exponent > 0; exponent >>= 1) {
        if (exponent & 1)
            result = result * square % p;
        square = square * square % p;
    }
    return (uint32_t)result;
}

/* Miller's test for one base; p is odd and above the base. */
static bool strong(uint32_t p, uint32_t base)
{
    uint32_t odd = p - 1;
    int twos = 0;
    for (; odd % 2 == 0; odd /= 2)
        twos++;
    uint64_t x = power(base, odd, p);
    if (x == 1 || x == p - 1)
        return true;
    for (int i = 1; i < twos; i++) {
        x = x * x % p;
        if (x == p - 1)
            return true;
    }
    return false;
}

/* Division by small primes settles most numbers. No composite below 3,215,031,751 passes Miller's test for all of 2, 3, 5 and 7. */
bool is_prime(uint32_t p)
{
    static const uint32_t small[] = {2, 3, 5, 7, 11, 13, 17, 19, 23, 29, 31, 37};
    if (p < 2)
        return false;
    for (size_t i = 0; i < sizeof small / sizeof *small; i++) {
        if (small[i] * small[i] > p)
            return true;
        if (p % small[i] == 0)
            return p == small[i];
    }
    return strong(p, 2) && strong(p, 3) && strong(p, 5) && strong(p, 7);
}

/* Extended Euclid; a is not 0. */
uint32_t inverse(uint32_t a, uint32_t p)
{
    int64_t r0 = p, r1 = a, t0 = 0, t1 = 1;
    while (r1 != 0) {
        int64_t q = r0 / r1, r = r0 - q * r1, t = t0 - q * t1;
        r0 = r1, r1 = r;
        t0 = t1, t1 = t;
    }
    return (uint32_t)(t0 < 0 ? t0 + p : t0);
}

static uint64_t add_product(uint64_t sum, uint32_t a, uint32_t b, uint64_t square)
{
    sum += (uint64_t)a * b;
    return sum >= square ? sum - square : sum;
}

static void subtract_multiple(uint32_t *row, const uint32_t *pivot, uint32_t factor, int columns, uint32_t p)
{
    for (int j = 0; j < columns; j++)
        row[j] = (uint32_t)((row[j] + (uint64_t)(p - factor) * pivot[j]) % p);
}

static int rank(uint32_t a[MOST_ROWS][MOST_COLUMNS], int rows, int columns, uint32_t p)
{
    int done = 0;
    for (int j = 0; j < columns && done < rows; j++) {
        int i = done;
        while (i < rows && a[i][j] == 0)
            i++;
        if (i == rows)
            continue;
        uint32_t pivot[MOST_COLUMNS];
        memcpy(pivot, a[i], sizeof pivot);
        memcpy(a[i], a[done], sizeof pivot);
        memcpy(a[done], pivot, sizeof pivot);
        uint32_t inverted = inverse(pivot[j], p);
        for (i = done + 1; i < rows; i++)
            if (a[i][j] != 0)
                subtract_multiple(a[i], pivot, (uint32_t)((uint64_t)a[i][j] * inverted % p), columns, p);
        done++;
    }
    return done;
}

/* A zero entry has no degree and takes no part in its row's; a row of zeros has none. */
static struct row_degree row_degree(const struct claim *c, int i)
{
    struct row_degree row = {.none = true};
    for (int j = 0; j < c->m; j++) {
        int degree = c->length[i][j] - 1 + c->shift[j];
        if (c->length[i][j] > 0 && (row.none || degree > row.degree))
            row = (struct row_degree){.degree = degree};
    }
    return row;
}

static bool reduced(const struct claim *c)
{
    uint32_t leading[MOST_ROWS][MOST_COLUMNS] = {{0}};
    for (int i = 0; i < c->m; i++) {
        struct row_degree row = row_degree(c, i);
        if (row.none)
            return false;
        for (int j = 0; j < c->m; j++) {
            int at = row.degree - c->shift[j];
            if (0 <= at && at < c->length[i][j])
                leading[i][j] = c->entry[i][j][at];
        }
    }
    return rank(leading, c->m, c->m, c->p) == c->m;
}

/* Of the square whose first row is `row` and whose columns are those listed. */
static void determinant(const struct claim *c, int row, const int *columns, int size, struct polynomial *result)
{
    uint64_t square = (uint64_t)c->p * c->p, sum[MOST_DETERMINANT] = {0};
    if (size == 0) {
        result->length = 1;
        result->at[0] = 1;
        return;
    }
    result->length = 0;
    for (int j = 0; j < size; j++) {
        const uint32_t *entry = c->entry[row][columns[j]];
        int length = c->length[row][columns[j]], left[MOST_ROWS];
        struct polynomial minor;
        if (length == 0)
            continue;
        for (int k = 0, l = 0; k < size; k++)
            if (k != j)
                left[l++] = columns[k];
        determinant(c, row + 1, left, size - 1, &minor);
        for (int k = 0; k < length; k++) {
            uint32_t factor = j % 2 == 0 || entry[k] == 0 ? entry[k] : c->p - entry[k];
            for (int l = 0; l < minor.length; l++)
                sum[k + l] = add_product(sum[k + l], factor, minor.at[l], square);
        }
        if (minor.length > 0 && result->length < length + minor.length - 1)
            result->length = length + minor.length - 1;
    }
    for (int k = 0; k < result->length; k++)
        result->at[k] = (uint32_t)(sum[k] % c->p);
}

static bool is_monomial(const struct polynomial *f)
{
    int nonzero = 0;
    for (int k = 0; k < f->length; k++)
        nonzero += f->at[k] != 0;
    return nonzero == 1;
}

uint32_t product_at(const struct claim *c, int i, int j, int power)
{
    uint64_t square = (uint64_t)c->p * c->p, sum = 0;
    for (int t = 0; t < c->m; t++) {
        int first = power < c->order[j] ? 0 : power - c->order[j] + 1;
        for (int k = first; k <= power && k < c->length[i][t]; k++)
            sum = add_product(sum, c->entry[i][t][k], c->f[t][j][power - k], square);
    }
    return (uint32_t)(sum % c->p);
}

static uint64_t product_fault(const struct claim *c)
{
    for (int i = 0; i < c->m; i++)
        for (int j = 0; j < c->n; j++)
            for (int k = 0; k < c->order[j]; k++)
                if (product_at(c, i, j, k) != 0)
                    return packed(11, 2, (unsigned)i, (size_t)j);
    for (int i = 0; i < c->m; i++)
        for (int j = 0; j < c->n; j++)
            if (product_at(c, i, j, c->order[j]) != c->evidence[i][j])
                return packed(12, 2, (unsigned)i, (size_t)j);
    return 0;
}

static bool full_rank(const struct claim *c)
{
    uint32_t beside[MOST_ROWS][MOST_COLUMNS];
    for (int i = 0; i < c->m; i++) {
        for (int j = 0; j < c->m; j++)
            beside[i][j] = c->length[i][j] > 0 ? c->entry[i][j][0] : 0;
        for (int j = 0; j < c->n; j++)
            beside[i][c->m + j] = c->evidence[i][j];
    }
    return rank(beside, c->m, c->m + c->n, c->p) == c->m;
}

/* Of a reduced claim, whose rows all have a degree. */
static size_t degree_sum(const struct claim *c)
{
    int sum = 0;
    for (int i = 0; i < c->m; i++)
        sum += row_degree(c, i).degree - c->shift[i];
    return (size_t)sum;
}

uint64_t plain_judge(const uint8_t *problem, size_t problem_len, const uint8_t *answer, size_t answer_len)
{
    static const int columns[MOST_ROWS] = {0, 1, 2, 3};
    struct claim c;
    struct polynomial det;
    uint64_t refusal = read_claim(&c, problem, problem_len, answer, answer_len, true, is_prime);
    if (refusal != 0)
        return refusal;
    if (!reduced(&c))
        return packed(9, 0, 0, 0);
    determinant(&c, 0, columns, c.m, &det);
    if (!is_monomial(&det))
        return packed(10, 0, 0, 0);
    refusal = product_fault(&c);
    if (refusal != 0)
        return refusal;
    return full_rank(&c) ? packed(0, 0, 0, degree_sum(&c)) : packed(13, 0, 0, 0);
}

uint64_t plain_make_evidence(const uint8_t *problem, size_t problem_len, const uint8_t *answer, size_t answer_len, uint8_t *buffer,
                             size_t buffer_len)
{
    struct claim c;
    uint64_t refusal = read_claim(&c, problem, problem_len, answer, answer_len, false, is_prime);
    if (refusal != 0)
        return refusal;
    size_t needed = 2 + 4 * (size_t)(c.m * c.n), at = 2;
    if (buffer_len < needed)
        return packed(14, 0, 0, needed);
    buffer[0] = 'C';
    buffer[1] = 'E';
    for (int i = 0; i < c.m; i++)
        for (int j = 0; j < c.n; j++) {
            uint32_t value = product_at(&c, i, j, c.order[j]);
            for (int b = 0; b < 4; b++)
                buffer[at++] = (uint8_t)(value >> 8 * b);
        }
    return packed(0, 0, 0, needed);
}

/* The value at the point of a column of the product, cut at its order, its rows combined by u, less C's at the order. */
static uint32_t drawn_value(const struct claim *c, const uint32_t *u, uint32_t point, int j)
{
    uint64_t value = 0;
    for (int k = c->order[j]; k >= 0; k--) {
        uint64_t sum = value * point % c->p;
        for (int i = 0; i < c->m; i++) {
            uint64_t entry = product_at(c, i, j, k);
            if (k == c->order[j])
                entry += c->p - c->evidence[i][j];
            sum = (sum + u[i] * (entry % c->p)) % c->p;
        }
        value = sum;
    }
    return (uint32_t)value;
}

uint64_t plain_judge_drawn(const uint8_t *problem, size_t problem_len, const uint8_t *answer, size_t answer_len, const uint32_t *u,
                           uint32_t point)
{
    struct claim c;
    uint64_t refusal = read_claim(&c, problem, problem_len, answer, answer_len, true, is_prime);
    if (refusal != 0)
        return refusal;
    for (int i = 0; i <= c.m; i++)
        if ((i < c.m ? u[i] : point) >= c.p)
            return packed(16, 2, 0, (size_t)i);
    for (int j = 0; j < c.n; j++)
        if (drawn_value(&c, u, point, j) != 0)
            return packed(255, 0, 0, 0);
    return 0;
}
