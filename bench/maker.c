#include "maker.h"

#include <string.h>

/* splitmix64: any seed will do, and two seeds next to each other give unrelated numbers. */
uint32_t draw(struct source *source, uint32_t below)
{
    uint64_t z = source->state += 0x9E3779B97F4A7C15;
    z = (z ^ z >> 30) * 0xBF58476D1CE4E5B9;
    z = (z ^ z >> 27) * 0x94D049BB133111EB;
    return (uint32_t)((z ^ z >> 31) % below);
}

static uint32_t multiply_add(uint32_t sum, uint32_t a, uint32_t b, uint32_t p)
{
    return (uint32_t)((sum + (uint64_t)a * b) % p);
}

static uint32_t inverse(uint32_t a, uint32_t p)
{
    uint32_t result = 1;
    for (uint32_t exponent = p - 2; exponent > 0; exponent >>= 1) {
        if (exponent & 1)
            result = multiply_add(0, result, a, p);
        a = multiply_add(0, a, a, p);
    }
    return result;
}

static uint32_t largest_prime(uint32_t most)
{
    for (uint32_t p = most; p > 2; p--) {
        uint32_t divisor = 2;
        while (divisor <= p / divisor && p % divisor != 0)
            divisor++;
        if (divisor > p / divisor)
            return p;
    }
    return 2;
}

/* Coefficient of PF; the entries are read whole, so they are 0 past their length. */
static uint32_t product_at(const struct claim *c, int i, int j, int power)
{
    uint32_t sum = 0;
    for (int t = 0; t < c->m; t++)
        for (int k = 0; k <= power && k < MOST_LENGTH; k++)
            if (power - k < c->order[j])
                sum = multiply_add(sum, c->entry[i][t][k], c->f[t][j][power - k], c->p);
    return sum;
}

static void set_lengths(struct claim *c)
{
    for (int i = 0; i < c->m; i++)
        for (int j = 0; j < c->m; j++) {
            int length = MOST_LENGTH;
            while (length > 0 && c->entry[i][j][length - 1] == 0)
                length--;
            c->length[i][j] = length;
        }
}

static void set_evidence(struct claim *c)
{
    for (int i = 0; i < c->m; i++)
        for (int j = 0; j < c->n; j++)
            c->evidence[i][j] = product_at(c, i, j, c->order[j]);
}

/* Row i plus `factor` times row t. */
static void add_row(struct claim *c, int i, int t, uint32_t factor)
{
    for (int j = 0; j < c->m; j++)
        for (int k = 0; k < MOST_LENGTH; k++)
            c->entry[i][j][k] = multiply_add(c->entry[i][j][k], factor, c->entry[t][j][k], c->p);
}

static void row_times_x(struct claim *c, int i)
{
    for (int j = 0; j < c->m; j++) {
        memmove(c->entry[i][j] + 1, c->entry[i][j], sizeof c->entry[i][j] - sizeof c->entry[i][j][0]);
        c->entry[i][j][0] = 0;
    }
}

static void row_times_x_less_one(struct claim *c, int i)
{
    struct claim before = *c;
    row_times_x(c, i);
    for (int j = 0; j < c->m; j++)
        for (int k = 0; k < MOST_LENGTH; k++)
            c->entry[i][j][k] = multiply_add(c->entry[i][j][k], c->p - 1, before.entry[i][j][k], c->p);
}

/* The rows, lowest degree first. */
static void sort_rows(const int *degree, int m, int *sorted)
{
    for (int i = 0; i < m; i++) {
        int at = i;
        for (; at > 0 && degree[sorted[at - 1]] > degree[i]; at--)
            sorted[at] = sorted[at - 1];
        sorted[at] = i;
    }
}

/* One step of the iteration: rows that depend on lower ones at power k lose their residual, the others are multiplied by X. */
static void order_step(struct claim *c, int k, int *degree)
{
    uint32_t residual[MOST_ROWS][MOST_ROWS];
    int sorted[MOST_ROWS], pivot[MOST_ROWS];
    sort_rows(degree, c->m, sorted);
    for (int a = 0; a < c->m; a++) {
        int i = sorted[a];
        for (int j = 0; j < c->n; j++)
            residual[i][j] = k < c->order[j] ? product_at(c, i, j, k) : 0;
        for (int b = 0; b < a; b++) {
            int t = sorted[b];
            if (pivot[t] == c->n || residual[i][pivot[t]] == 0)
                continue;
            uint32_t quotient = multiply_add(0, residual[i][pivot[t]], inverse(residual[t][pivot[t]], c->p), c->p);
            for (int j = 0; j < c->n; j++)
                residual[i][j] = multiply_add(residual[i][j], c->p - quotient, residual[t][j], c->p);
            add_row(c, i, t, c->p - quotient);
        }
        pivot[i] = 0;
        while (pivot[i] < c->n && residual[i][pivot[i]] == 0)
            pivot[i]++;
    }
    for (int i = 0; i < c->m; i++)
        if (pivot[i] < c->n) {
            row_times_x(c, i);
            degree[i]++;
        }
}

/* Fills in the answer. In the end multiples of rows are added to rows of no lower degree, so that few entries are 0. */
static void make_basis(struct claim *c, struct source *source)
{
    int degree[MOST_ROWS];
    memset(c->entry, 0, sizeof c->entry);
    for (int i = 0; i < c->m; i++) {
        c->entry[i][i][0] = 1;
        degree[i] = c->shift[i];
    }
    for (int k = 0; k < MOST_ORDER; k++)
        order_step(c, k, degree);
    for (int i = 0; i < c->m; i++)
        for (int t = 0; t < i; t++) {
            if (degree[t] <= degree[i])
                add_row(c, i, t, draw(source, c->p));
            else
                add_row(c, t, i, draw(source, c->p));
        }
    set_lengths(c);
    set_evidence(c);
}

/* F = A * B + X^e * R, with A and B of the rank given and e from 0 to 16. */
static void make_f(struct claim *c, struct source *source, int rank, int e)
{
    uint32_t a[MOST_ROWS][MOST_ROWS][MOST_ORDER], b[MOST_ROWS][MOST_ROWS][MOST_ORDER];
    for (int i = 0; i < MOST_ROWS; i++)
        for (int j = 0; j < MOST_ROWS; j++)
            for (int k = 0; k < MOST_ORDER; k++) {
                a[i][j][k] = draw(source, c->p);
                b[i][j][k] = draw(source, c->p);
                c->f[i][j][k] = k < e ? 0 : draw(source, c->p);
            }
    for (int i = 0; i < c->m; i++)
        for (int j = 0; j < c->n; j++)
            for (int t = 0; t < rank; t++)
                for (int k = 0; k < c->order[j]; k++)
                    for (int l = 0; l <= k; l++)
                        c->f[i][j][k] = multiply_add(c->f[i][j][k], a[i][t][l], b[t][j][k - l], c->p);
}

static void largest_claim(struct claim *c, struct source *source, uint64_t number)
{
    static const uint32_t primes[] = {2147483647, 2147483629, 2147483587, 2147483579, 2147483563, 2147483549, 2147483543, 2147483497};
    c->p = primes[number % 8];
    c->m = c->n = MOST_ROWS;
    for (int i = 0; i < MOST_ROWS; i++) {
        c->order[i] = MOST_ORDER;
        c->shift[i] = number % 2 == 0 ? 0 : (int)draw(source, 5) - 2;
    }
    make_f(c, source, MOST_ROWS - 1, 1 + (int)(number / 2 % MOST_ORDER));
    make_basis(c, source);
}

static void small_claim(struct claim *c, struct source *source)
{
    c->p = 251;
    c->m = c->n = 1;
    c->order[0] = 1 + (int)draw(source, MOST_ORDER);
    c->shift[0] = (int)draw(source, 5) - 2;
    make_f(c, source, 0, (int)draw(source, MOST_ORDER + 1));
    make_basis(c, source);
}

static void job_claim(struct claim *c, struct source *source)
{
    c->p = 251;
    c->m = c->n = MOST_ROWS;
    for (int i = 0; i < MOST_ROWS; i++) {
        c->order[i] = 1 + (int)draw(source, MOST_ORDER);
        c->shift[i] = (int)draw(source, 5) - 2;
    }
    make_f(c, source, MOST_ROWS - 1, (int)draw(source, MOST_ORDER + 1));
    make_basis(c, source);
}

void make_diagonal(uint32_t p, uint32_t most, struct source *source, struct files *files)
{
    struct claim c = {.p = p, .m = MOST_ROWS, .n = MOST_ROWS};
    for (int i = 0; i < MOST_ROWS; i++) {
        c.order[i] = 1;
        c.f[i][i][0] = 1;
        c.length[i][i] = 2;
        c.entry[i][i][1] = c.evidence[i][i] = 1 + draw(source, most);
    }
    write_files(&c, files);
}

static uint32_t some_prime(struct source *source)
{
    static const uint32_t primes[] = {2, 3, 5, 7, 251, 257, 65521, 65537, 2147483629, 2147483647};
    switch (draw(source, 4)) {
    case 0:
        return largest_prime(2 + draw(source, INT32_MAX - 1));
    case 1:
        return largest_prime(2 + draw(source, 1000));
    default:
        return primes[draw(source, sizeof primes / sizeof *primes)];
    }
}

static void some_sizes(struct claim *c, struct source *source)
{
    static const uint32_t widths[] = {0, 0, 3, 1000};
    uint32_t width = widths[draw(source, 4)];
    c->p = some_prime(source);
    c->m = 1 + (int)draw(source, MOST_ROWS);
    c->n = 1 + (int)draw(source, MOST_ROWS);
    for (int i = 0; i < MOST_ROWS; i++) {
        c->order[i] = 1 + (int)draw(source, MOST_ORDER);
        c->shift[i] = (int)draw(source, 2 * width + 1) - (int)width;
    }
}

static void honest_claim(struct claim *c, struct source *source)
{
    some_sizes(c, source);
    make_f(c, source, (int)draw(source, MOST_ROWS), (int)draw(source, MOST_ORDER + 1));
    make_basis(c, source);
}

/* Half of them with entries of one length, which are reduced for a shift of 0, so that the determinant is reached. */
static void random_claim(struct claim *c, struct source *source)
{
    some_sizes(c, source);
    make_f(c, source, 0, 0);
    uint32_t one_length = draw(source, 2 * (MOST_LENGTH + 1));
    for (int i = 0; i < c->m; i++)
        for (int j = 0; j < c->m; j++) {
            uint32_t length = one_length <= MOST_LENGTH ? one_length : draw(source, MOST_LENGTH + 1);
            for (uint32_t k = 0; k < length; k++)
                c->entry[i][j][k] = draw(source, c->p);
        }
    set_lengths(c);
    set_evidence(c);
}

static void change(uint32_t *value, uint32_t p, struct source *source)
{
    *value = multiply_add(*value, 1, 1 + draw(source, p - 1), p);
}

static void zero_row(struct claim *c, int i)
{
    memset(c->entry[i], 0, sizeof c->entry[i]);
}

/* Ways to spoil a claim that its files still show as a claim. */
static void spoil_claim(struct claim *c, struct source *source)
{
    int i = (int)draw(source, (uint32_t)c->m), t = (int)draw(source, (uint32_t)c->m), j = (int)draw(source, (uint32_t)c->n);
    struct claim before = *c;
    switch (draw(source, 9)) {
    case 0: /* 13: a multiple of the basis */
        row_times_x(c, i);
        break;
    case 1: /* 10: another root of the determinant */
        row_times_x_less_one(c, i);
        break;
    case 2: /* a pass or 9 */
        if (i != t)
            add_row(c, i, t, draw(source, c->p));
        break;
    case 3:
        change(&c->entry[i][t][draw(source, MOST_LENGTH)], c->p, source);
        break;
    case 4: /* 11 or 12 */
        change(&c->f[i][j][draw(source, (uint32_t)c->order[j])], c->p, source);
        break;
    case 5: /* 9 */
        zero_row(c, i);
        break;
    case 6: /* 9 */
        memcpy(c->entry[i], before.entry[t], sizeof c->entry[i]);
        break;
    case 7: /* a pass */
        memcpy(c->entry[i], before.entry[t], sizeof c->entry[i]);
        memcpy(c->entry[t], before.entry[i], sizeof c->entry[t]);
        break;
    default:
        break;
    }
    set_lengths(c);
    set_evidence(c);
    if (draw(source, 8) == 0) /* 12 */
        change(&c->evidence[i][j], c->p, source);
}

/* Ways to spoil files: 2 to 6 by a byte, 7 and 8. */
static void spoil_files(struct claim *c, struct source *source, struct files *files)
{
    int i = (int)draw(source, (uint32_t)c->m), t = (int)draw(source, (uint32_t)c->m);
    uint32_t way = draw(source, 6);
    if (way == 0 && c->length[i][t] > 0)
        c->entry[i][t][c->length[i][t] - 1] = 0;
    if (way == 1)
        c->p = draw(source, UINT32_MAX);
    write_files(c, files);
    switch (way) {
    case 2:
        files->problem[draw(source, (uint32_t)files->problem_len)] = (uint8_t)draw(source, 256);
        break;
    case 3:
        files->answer[draw(source, (uint32_t)files->answer_len)] = (uint8_t)draw(source, 256);
        break;
    case 4:
        files->problem[files->problem_len++] = (uint8_t)draw(source, 256);
        break;
    case 5:
        files->answer[files->answer_len++] = (uint8_t)draw(source, 256);
        break;
    default:
        break;
    }
}

static void cut_files(struct source *source, struct files *files)
{
    uint32_t at = draw(source, (uint32_t)(files->problem_len + files->answer_len));
    if (at < files->problem_len)
        files->problem_len = at;
    else
        files->answer_len = at - files->problem_len;
    if (files->answer_without > files->answer_len)
        files->answer_without = files->answer_len;
}

/* Random bytes, in the whole problem or in the whole answer. */
static void random_bytes(struct source *source, struct files *files)
{
    bool problem = draw(source, 2) == 0;
    uint8_t *bytes = problem ? files->problem : files->answer;
    size_t length = problem ? files->problem_len : files->answer_len;
    for (size_t i = 0; i < length; i++)
        bytes[i] = (uint8_t)draw(source, 256);
}

static void mixed_files(struct claim *c, struct source *source, uint64_t number, struct files *files)
{
    bool other = number / 4 % 2 == 1;
    if (number % 4 == 3)
        random_claim(c, source);
    else
        honest_claim(c, source);
    if (number % 4 == 1 && !other)
        spoil_claim(c, source);
    if (number % 4 == 1 && other)
        spoil_files(c, source, files);
    else
        write_files(c, files);
    if (number % 4 == 2)
        cut_files(source, files);
    if (number % 4 == 3 && other)
        random_bytes(source, files);
}

void make_files(enum group group, uint64_t number, struct files *files)
{
    struct source source = {.state = number * 4 + (uint64_t)group};
    struct claim c = {0};
    switch (group) {
    case LARGEST:
        largest_claim(&c, &source, number);
        write_files(&c, files);
        break;
    case MIXED:
        mixed_files(&c, &source, number, files);
        break;
    case SMALL:
        small_claim(&c, &source);
        write_files(&c, files);
        break;
    case JOBS:
        job_claim(&c, &source);
        write_files(&c, files);
        break;
    case DIAGONAL:
        make_diagonal(251, 250, &source, files);
        break;
    }
}
