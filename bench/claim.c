/* Reading front to back, field by field, as document 01 says. Each reader gives false once a refusal is noted. */
#include "claim.h"

struct reader {
    const uint8_t *bytes;
    size_t length, at;
    unsigned file, record;
    uint64_t refusal;
};

uint64_t packed(unsigned code, unsigned file, unsigned record, size_t at)
{
    return (uint64_t)code | (uint64_t)file << 8 | (uint64_t)record << 16 | (uint64_t)at << 32;
}

static bool refuse(struct reader *r, unsigned code, size_t at)
{
    r->refusal = packed(code, r->file, r->record, at);
    return false;
}

/* True if the field is wholly there; it is then passed. */
static bool field(struct reader *r, size_t width)
{
    if (r->length - r->at < width)
        return refuse(r, 1, r->at);
    r->at += width;
    return true;
}

static bool one_byte(struct reader *r, uint32_t *value)
{
    if (!field(r, 1))
        return false;
    *value = r->bytes[r->at - 1];
    return true;
}

static bool two_bytes(struct reader *r, uint32_t *value)
{
    if (!field(r, 2))
        return false;
    const uint8_t *b = r->bytes + r->at - 2;
    *value = b[0] | (uint32_t)b[1] << 8;
    return true;
}

static bool four_bytes(struct reader *r, uint32_t *value)
{
    if (!field(r, 4))
        return false;
    const uint8_t *b = r->bytes + r->at - 4;
    *value = b[0] | (uint32_t)b[1] << 8 | (uint32_t)b[2] << 16 | (uint32_t)b[3] << 24;
    return true;
}

static bool mark(struct reader *r, char first, char second)
{
    uint32_t value;
    if (!two_bytes(r, &value))
        return false;
    uint32_t due = (uint32_t)(unsigned char)first | (uint32_t)(unsigned char)second << 8;
    return value == due || refuse(r, 2, r->at - 2);
}

static bool small(struct reader *r, uint32_t least, uint32_t most, int *value)
{
    uint32_t read;
    if (!one_byte(r, &read))
        return false;
    *value = (int)read;
    return (least <= read && read <= most) || refuse(r, 3, r->at - 1);
}

static bool place(struct reader *r, uint32_t due)
{
    uint32_t value;
    return one_byte(r, &value) && (value == due || refuse(r, 5, r->at - 1));
}

static bool residue(struct reader *r, uint32_t p, uint32_t *value)
{
    return four_bytes(r, value) && (*value < p || refuse(r, 6, r->at - 4));
}

static bool read_sizes(struct reader *r, struct claim *c, bool (*is_prime)(uint32_t))
{
    if (!mark(r, 'P', 'R') || !four_bytes(r, &c->p))
        return false;
    if (c->p > INT32_MAX || !is_prime(c->p))
        return refuse(r, 4, r->at - 4);
    return small(r, 1, MOST_ROWS, &c->m) && small(r, 1, MOST_ROWS, &c->n);
}

static bool read_orders(struct reader *r, struct claim *c)
{
    if (!mark(r, 'O', 'R'))
        return false;
    for (int j = 0; j < c->n; j++)
        if (!small(r, 1, MOST_ORDER, &c->order[j]))
            return false;
    return true;
}

static bool read_shifts(struct reader *r, struct claim *c)
{
    if (!mark(r, 'S', 'H'))
        return false;
    for (int i = 0; i < c->m; i++) {
        uint32_t value;
        if (!two_bytes(r, &value))
            return false;
        c->shift[i] = value < 0x8000 ? (int)value : (int)value - 0x10000;
        if (c->shift[i] < -MOST_SHIFT || MOST_SHIFT < c->shift[i])
            return refuse(r, 3, r->at - 2);
    }
    return true;
}

static bool read_column(struct reader *r, struct claim *c, int j)
{
    if (!mark(r, 'F', 'C') || !place(r, (uint32_t)j))
        return false;
    for (int i = 0; i < c->m; i++)
        for (int k = 0; k < c->order[j]; k++)
            if (!residue(r, c->p, &c->f[i][j][k]))
                return false;
    return true;
}

static bool read_entry(struct reader *r, struct claim *c, int i, int j)
{
    if (!mark(r, 'P', 'E') || !place(r, (uint32_t)i) || !place(r, (uint32_t)j) || !small(r, 0, MOST_LENGTH, &c->length[i][j]))
        return false;
    int length = c->length[i][j];
    for (int k = 0; k < length; k++)
        if (!residue(r, c->p, &c->entry[i][j][k]))
            return false;
    return length == 0 || c->entry[i][j][length - 1] != 0 || refuse(r, 7, r->at - 4);
}

static bool read_evidence(struct reader *r, struct claim *c)
{
    if (!mark(r, 'C', 'E'))
        return false;
    for (int i = 0; i < c->m; i++)
        for (int j = 0; j < c->n; j++)
            if (!residue(r, c->p, &c->evidence[i][j]))
                return false;
    r->record++;
    return true;
}

static bool ended(struct reader *r)
{
    return r->at == r->length || refuse(r, 8, r->at);
}

static bool read_problem(struct reader *r, struct claim *c, bool (*is_prime)(uint32_t))
{
    if (!read_sizes(r, c, is_prime))
        return false;
    r->record++;
    if (!read_orders(r, c))
        return false;
    r->record++;
    if (!read_shifts(r, c))
        return false;
    r->record++;
    for (int j = 0; j < c->n; j++, r->record++)
        if (!read_column(r, c, j))
            return false;
    return ended(r);
}

static bool read_answer(struct reader *r, struct claim *c, bool with_evidence)
{
    for (int i = 0; i < c->m; i++)
        for (int j = 0; j < c->m; j++, r->record++)
            if (!read_entry(r, c, i, j))
                return false;
    return (!with_evidence || read_evidence(r, c)) && ended(r);
}

uint64_t read_problem_alone(struct claim *claim, const uint8_t *problem, size_t problem_len, bool (*is_prime)(uint32_t))
{
    struct reader r = {.bytes = problem, .length = problem_len};
    return read_problem(&r, claim, is_prime) ? 0 : r.refusal;
}

uint64_t read_answer_alone(struct claim *claim, const uint8_t *answer, size_t answer_len, bool with_evidence)
{
    struct reader r = {.bytes = answer, .length = answer_len, .file = 1};
    return read_answer(&r, claim, with_evidence) ? 0 : r.refusal;
}

uint64_t read_claim(struct claim *claim, const uint8_t *problem, size_t problem_len, const uint8_t *answer, size_t answer_len,
                    bool with_evidence, bool (*is_prime)(uint32_t))
{
    uint64_t refusal = read_problem_alone(claim, problem, problem_len, is_prime);
    return refusal != 0 ? refusal : read_answer_alone(claim, answer, answer_len, with_evidence);
}
