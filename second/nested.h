/* Whether an edition is nested in another, and if it is not, why. */
#ifndef SECOND_NESTED_H
#define SECOND_NESTED_H

#include "card.h"

enum { NESTED_LENGTH = 1, NESTED_VALUE, NESTED_REQUIRED, NESTED_INNER, NESTED_OUTER };

/* 1 nested or 0 not in bits 40-63; if not, the clause in bits 8-15 and in bits 16-23 the tag of the first row that is
   not nested, or 0 where the inner or the outer edition is not well formed. There is no refusal. */
uint64_t second_nested(const uint8_t *inner, size_t inner_len, const uint8_t *outer, size_t outer_len);

#endif
