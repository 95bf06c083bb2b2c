/* How much stack a call takes. */
#ifndef BENCH_STACK_H
#define BENCH_STACK_H

#include "compare.h"

/* The bytes below its caller that the call writes to. */
size_t stack_of(work *function, const struct lent *lent, uint64_t *answer);

#endif
