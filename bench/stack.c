#define _XOPEN_SOURCE 700
#include "stack.h"

#include <stdint.h>
#include <stdlib.h>
#include <string.h>
#include <ucontext.h>

enum { STACK_BYTES = 1 << 20, PAINT = 0xA5 };

static void nothing(void)
{
}

static size_t written(uint8_t *stack, void (*call)(void))
{
    ucontext_t here, there;
    memset(stack, PAINT, STACK_BYTES);
    getcontext(&there);
    there.uc_stack.ss_sp = stack;
    there.uc_stack.ss_size = STACK_BYTES;
    there.uc_link = &here;
    makecontext(&there, call, 0);
    swapcontext(&here, &there);
    size_t deepest = 0;
    while (deepest < STACK_BYTES && stack[deepest] == PAINT)
        deepest++;
    return STACK_BYTES - deepest;
}

size_t stack_depth(void (*call)(void))
{
    uint8_t *stack = malloc(STACK_BYTES);
    if (stack == NULL)
        return 0;
    /* The first call of all may be one that looks symbols up on this stack: once for nothing. */
    written(stack, call);
    size_t depth = written(stack, call) - written(stack, nothing);
    free(stack);
    return depth;
}
