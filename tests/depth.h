/*
 * How far down a function writes on its stack: it is run on one that was painted.
 * Include it first, or with _XOPEN_SOURCE 700 defined, for the contexts.
 */
#ifndef DEPTH_H
#define DEPTH_H

#include <stdint.h>
#include <stdlib.h>
#include <string.h>
#include <ucontext.h>

enum { PAINTED = 1 << 20 };

static size_t depth_over(uint8_t *stack, uint8_t paint, void (*run)(void))
{
    static ucontext_t inside, outside;
    size_t untouched = 0;
    memset(stack, paint, PAINTED);
    getcontext(&inside);
    inside.uc_stack.ss_sp = stack;
    inside.uc_stack.ss_size = PAINTED;
    inside.uc_link = &outside;
    makecontext(&inside, run, 0);
    swapcontext(&outside, &inside);
    while (untouched < PAINTED && stack[untouched] == paint)
        untouched++;
    return PAINTED - untouched;
}

/* With two paints, so that a byte that is written over by its own colour is seen once. */
static size_t depth_of(void (*run)(void))
{
    uint8_t *stack = malloc(PAINTED);
    size_t a, b;
    if (!stack)
        abort();
    a = depth_over(stack, 0xA5, run);
    b = depth_over(stack, 0x5A, run);
    free(stack);
    return a > b ? a : b;
}

#endif
