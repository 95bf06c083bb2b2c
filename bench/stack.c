/* The call runs on a stack of its own, which is painted beforehand; what it has written to is not painted any more. It runs
   twice, with two paints, since it could write the one of them. */
#define _XOPEN_SOURCE 600
#include "stack.h"

#include <stdio.h>
#include <stdlib.h>
#include <string.h>
#include <ucontext.h>

enum { STACK_SIZE = 1 << 18 };

static uint8_t stack[STACK_SIZE];
static ucontext_t here, there;
static work *called;
static const struct lent *with;
static uint64_t answered;

static void call_it(void)
{
    answered = called(with);
}

static uint64_t nothing(const struct lent *lent)
{
    (void)lent;
    return 0;
}

static size_t bytes_written(work *function, const struct lent *lent, uint8_t paint)
{
    size_t i = 0;

    memset(stack, paint, STACK_SIZE);
    called = function;
    with = lent;
    if (getcontext(&there) != 0) {
        fputs("calls: there is no stack to be had\n", stderr);
        exit(1);
    }
    there.uc_stack.ss_sp = stack;
    there.uc_stack.ss_size = STACK_SIZE;
    there.uc_link = &here;
    makecontext(&there, call_it, 0);
    swapcontext(&here, &there);
    while (i < STACK_SIZE && stack[i] == paint)
        i++;
    return STACK_SIZE - i;
}

static size_t most_written(work *function, const struct lent *lent)
{
    size_t one = bytes_written(function, lent, 0xA5);
    size_t other = bytes_written(function, lent, 0x5A);

    return one > other ? one : other;
}

size_t stack_of(work *function, const struct lent *lent, uint64_t *answer)
{
    size_t least = most_written(nothing, lent);
    size_t most = most_written(function, lent);

    *answer = answered;
    return most - least;
}
