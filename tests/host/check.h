/* What the tests of the archive share: document 01's problem on disk, and checks that print a line only if they fail. */
#ifndef CHECK_H
#define CHECK_H

#include "board.h"

#include <inttypes.h>
#include <stdbool.h>
#include <stdio.h>

enum { PROBLEM = 36, GUARD = 0xAA, MOST_STACK = 65536 };

static const uint8_t problem[PROBLEM] = {
    0x50, 0x52, 0x07, 0x00, 0x00, 0x00, 0x02, 0x01, 0x4F, 0x52, 0x02, 0x53, 0x48, 0x00, 0x00, 0x00, 0x00, 0x46,
    0x43, 0x00, 0x01, 0x00, 0x00, 0x00, 0x00, 0x00, 0x00, 0x00, 0x01, 0x00, 0x00, 0x00, 0x01, 0x00, 0x00, 0x00,
};

static int passed, failed;

static void check(bool good, const char *name)
{
    if (good) {
        passed++;
        return;
    }
    failed++;
    printf("FAILED: %s\n", name);
}

static void check_verdict(uint64_t got, unsigned code, unsigned file, unsigned record, uint32_t at, const char *name)
{
    bool good = board_code(got) == code && board_file(got) == file && board_record(got) == record && board_at(got) == at;
    check(good, name);
    if (!good)
        printf("  due %u %u %u %" PRIu32 ", got %u %u %u %" PRIu32 "\n", code, file, record, at, board_code(got), board_file(got),
               board_record(got), board_at(got));
}

#endif
