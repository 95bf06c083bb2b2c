/* Whether a table is a well-formed edition, and if it is not, why. */
#ifndef SECOND_FORMED_H
#define SECOND_FORMED_H

#include "card.h"

/* The clauses of document 01 in its order, then document 02's (Seven), then what is no edition at all. */
enum {
    FORMED_EMPTY = 1,
    FORMED_RANGE,
    FORMED_8E_OPTIONAL,
    FORMED_8E_LENGTHS,
    FORMED_8E_RULE,
    FORMED_RAW,
    FORMED_BIRTH,
    FORMED_EXPIRY,
    FORMED_NUMBER,
    FORMED_SIZE,
    FORMED_OUTSIDE
};

/* 0 well formed; else the clause in bits 8-15, and in bits 16-23 the tag of the first row that breaks one, or 0 with a
   wrong size and with the number. */
uint64_t second_formed(const uint8_t *table, size_t table_len);

/* The permitted lengths of a row of a table, bit n for length n. */
uint32_t second_lengths(const uint8_t *row);

#endif
