/*
 * The archive's reads and writes: every call gets its files, its buffer and its drawn row in rooms of exactly their sizes.
 *
 *     test pages FIRST COUNT     rooms between pages that may not be touched; what is left of the room's own page holds guard bytes
 *     test heap FIRST COUNT      rooms from malloc, to be run under valgrind
 *
 * The claims are those of bench/maker.h from number FIRST on, each as it is and with some bytes changed, and now and then cut at every
 * byte. Verdicts, evidence and the answers by drawn numbers are held against the plain C version, and the files have to stay as they were.
 */
#define _DEFAULT_SOURCE
#include "bases.h"
#include "board.h"
#include "judges.h"
#include "maker.h"

#include <inttypes.h>
#include <stdio.h>
#include <stdlib.h>
#include <string.h>
#include <sys/mman.h>

enum { PAGE = 4096, GUARD = 0xAA, MOST_LENT = LONGEST_EVIDENCE + 8, LARGEST_EVERY = 40, CUTS_EVERY = 400 };

struct room {
    uint8_t *page, *bytes;
    size_t length;
};

static bool heap;
static struct room problem_room, answer_room, buffer_room, form_room, drawn_room;
static uint64_t calls, failures, claim_number;

static void open_room(struct room *room)
{
    if (heap)
        return;
    uint8_t *pages = mmap(NULL, 3 * PAGE, PROT_NONE, MAP_PRIVATE | MAP_ANONYMOUS, -1, 0);
    if (pages == MAP_FAILED || mprotect(pages + PAGE, PAGE, PROT_READ | PROT_WRITE) != 0)
        exit(2);
    room->page = pages + PAGE;
}

/* At the front of its page a room shows what is touched before it, at the end what is touched after it. */
static uint8_t *lend(struct room *room, size_t length, bool front)
{
    room->length = length;
    if (heap) {
        free(room->bytes);
        room->bytes = malloc(length);
        if (room->bytes == NULL)
            exit(2);
        memset(room->bytes, GUARD, length);
    } else {
        room->bytes = front ? room->page : room->page + PAGE - length;
        memset(room->page, GUARD, PAGE);
    }
    return room->bytes;
}

static bool all_guards(const uint8_t *from, const uint8_t *to)
{
    while (from < to)
        if (*from++ != GUARD)
            return false;
    return true;
}

static bool holds(const struct room *room, const uint8_t *bytes)
{
    if (memcmp(room->bytes, bytes, room->length) != 0)
        return false;
    return heap || (all_guards(room->page, room->bytes) && all_guards(room->bytes + room->length, room->page + PAGE));
}

static void check(bool good, const char *what, uint64_t got, uint64_t due)
{
    calls++;
    if (good && got == due)
        return;
    if (failures++ < 10)
        printf("FAILED: %s, claim %" PRIu64 ": verdict %016" PRIx64 ", due %016" PRIx64 "%s\n", what, claim_number, got, due,
               good ? "" : ", bytes that differ");
}

/* A basis, with some number of steps, in a buffer that just does, lacks a byte, or is of any length; held against the plain C version. */
static void try_basis(const struct files *f, struct source *source, bool front)
{
    uint8_t due_bytes[BOARD_ANSWER_MOST + 8];
    uint32_t steps = draw(source, 4) == 0 ? UINT32_MAX : draw(source, MOST_ORDER + 2);
    size_t lent = draw(source, sizeof due_bytes + 1), needed = plain_make_basis(f->problem, f->problem_len, steps, due_bytes, 0) >> 32;
    if (draw(source, 3) > 0 && 0 < needed && needed <= sizeof due_bytes)
        lent = needed - draw(source, 2);
    memset(due_bytes, GUARD, sizeof due_bytes);
    memcpy(lend(&problem_room, f->problem_len, front), f->problem, f->problem_len);
    lend(&buffer_room, lent, front);
    uint64_t got = make_basis(problem_room.bytes, f->problem_len, steps, buffer_room.bytes, lent);
    uint64_t due = plain_make_basis(f->problem, f->problem_len, steps, due_bytes, lent);
    check(holds(&problem_room, f->problem) && holds(&buffer_room, due_bytes), "make_basis", got, due);
}

static void try_judge(const struct files *f, bool front)
{
    memcpy(lend(&problem_room, f->problem_len, front), f->problem, f->problem_len);
    memcpy(lend(&answer_room, f->answer_len, front), f->answer, f->answer_len);
    uint64_t got = judge(problem_room.bytes, f->problem_len, answer_room.bytes, f->answer_len);
    uint64_t due = plain_judge(f->problem, f->problem_len, f->answer, f->answer_len);
    check(holds(&problem_room, f->problem) && holds(&answer_room, f->answer), "judge", got, due);
}

/* The form lies in a room of its own. What a room at the end of its page holds need not be aligned for a struct, so that its front is taken. */
static void try_prepared(const struct files *f, bool front)
{
    static struct board_problem before;
    memset(&before, GUARD, sizeof before);
    memcpy(lend(&problem_room, f->problem_len, front), f->problem, f->problem_len);
    memcpy(lend(&answer_room, f->answer_len, front), f->answer, f->answer_len);
    struct board_problem *form = (struct board_problem *)(void *)lend(&form_room, sizeof *form, sizeof *form % sizeof(size_t) != 0 || front);
    uint64_t due = plain_judge(f->problem, f->problem_len, f->answer, f->answer_len);
    uint64_t read = board_prepare(problem_room.bytes, f->problem_len, form);
    uint64_t got = read;
    if (board_code(read) == BOARD_PASS) {
        memcpy(&before, form, sizeof before);
        got = board_judge_prepared(form, answer_room.bytes, f->answer_len);
    }
    const uint8_t *kept = (const uint8_t *)&before;
    check(holds(&problem_room, f->problem) && holds(&answer_room, f->answer) && holds(&form_room, kept), "prepared", got, due);
    uint32_t at = (uint32_t)(claim_number % sizeof before);
    form_room.bytes[at] ^= 1;
    memcpy(&before, form, sizeof before);
    board_judge_prepared(form, answer_room.bytes, f->answer_len);
    check(holds(&answer_room, f->answer) && holds(&form_room, kept), "prepared, a byte changed", 0, 0);
}

static void try_evidence(const struct files *f, size_t lent, bool front)
{
    uint8_t due_bytes[MOST_LENT];
    memset(due_bytes, GUARD, sizeof due_bytes);
    memcpy(lend(&problem_room, f->problem_len, front), f->problem, f->problem_len);
    memcpy(lend(&answer_room, f->answer_without, front), f->answer, f->answer_without);
    lend(&buffer_room, lent, front);
    uint64_t got = make_evidence(problem_room.bytes, f->problem_len, answer_room.bytes, f->answer_without, buffer_room.bytes, lent);
    uint64_t due = plain_make_evidence(f->problem, f->problem_len, f->answer, f->answer_without, due_bytes, lent);
    check(holds(&problem_room, f->problem) && holds(&answer_room, f->answer) && holds(&buffer_room, due_bytes), "make_evidence", got, due);
}

/* u lies in a room of its own, of as many numbers as m may be at most. Some of the numbers are below no p. */
static void try_drawn(const struct files *f, struct source *source, bool front)
{
    uint32_t u[BOARD_DRAWN], most = draw(source, 4) == 0 ? UINT32_MAX : 2 + draw(source, 3), point = draw(source, most);
    for (int i = 0; i < BOARD_DRAWN; i++)
        u[i] = draw(source, draw(source, 8) == 0 ? UINT32_MAX : most);
    memcpy(lend(&problem_room, f->problem_len, front), f->problem, f->problem_len);
    memcpy(lend(&answer_room, f->answer_len, front), f->answer, f->answer_len);
    memcpy(lend(&drawn_room, sizeof u, front), u, sizeof u);
    uint64_t got = judge_drawn(problem_room.bytes, f->problem_len, answer_room.bytes, f->answer_len, (uint32_t *)(void *)drawn_room.bytes, point);
    uint64_t due = plain_judge_drawn(f->problem, f->problem_len, f->answer, f->answer_len, u, point);
    bool kept = holds(&problem_room, f->problem) && holds(&answer_room, f->answer) && holds(&drawn_room, (const uint8_t *)u);
    check(kept, "judge_drawn", got, due);
}

static void try_claim(const struct files *f, struct source *source)
{
    bool front = draw(source, 2) == 0;
    try_judge(f, front);
    try_prepared(f, front);
    try_drawn(f, source, front);
    try_evidence(f, MOST_LENT, front);
    try_evidence(f, draw(source, MOST_LENT + 1), front);
    try_basis(f, source, front);
}

static void mutate(struct files *f, struct source *source)
{
    for (uint32_t left = 1 + draw(source, 3); left > 0; left--) {
        bool problem = draw(source, 2) == 0;
        size_t length = problem ? f->problem_len : f->answer_len;
        if (length > 0)
            (problem ? f->problem : f->answer)[draw(source, (uint32_t)length)] = (uint8_t)draw(source, draw(source, 2) == 0 ? 256 : 20);
    }
}

static void try_cuts(const struct files *f, struct source *source)
{
    struct files cut = *f;
    for (cut.problem_len = 0; cut.problem_len < f->problem_len; cut.problem_len++)
        try_judge(&cut, draw(source, 2) == 0);
    for (cut.answer_len = cut.answer_without = 0; cut.answer_len < f->answer_len; cut.answer_without = ++cut.answer_len) {
        try_judge(&cut, draw(source, 2) == 0);
        try_evidence(&cut, MOST_LENT, draw(source, 2) == 0);
    }
}

int main(int argc, char **argv)
{
    if (argc != 4)
        return 2;
    heap = strcmp(argv[1], "heap") == 0;
    uint64_t first = strtoull(argv[2], NULL, 10), count = strtoull(argv[3], NULL, 10);
    open_room(&problem_room);
    open_room(&answer_room);
    open_room(&buffer_room);
    open_room(&form_room);
    open_room(&drawn_room);
    for (claim_number = first; claim_number < first + count; claim_number++) {
        struct files files;
        struct source source = {.state = ~claim_number};
        make_files(claim_number % LARGEST_EVERY == 0 ? LARGEST : MIXED, claim_number, &files);
        try_claim(&files, &source);
        if (claim_number % CUTS_EVERY == 0)
            try_cuts(&files, &source);
        mutate(&files, &source);
        try_claim(&files, &source);
    }
    if (heap) {
        free(problem_room.bytes);
        free(answer_room.bytes);
        free(buffer_room.bytes);
        free(form_room.bytes);
        free(drawn_room.bytes);
    }
    printf("%s: %" PRIu64 " claims from number %" PRIu64 ", %" PRIu64 " calls, %" PRIu64 " failures\n", argv[1], count, first, calls, failures);
    return calls > 0 && failures == 0 ? EXIT_SUCCESS : EXIT_FAILURE;
}
