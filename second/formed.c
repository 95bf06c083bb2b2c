/* Written from the documents alone, without a look at the library, and apart from the test that reading makes. */
#include "formed.h"

#define ONLY(n) (UINT32_C(1) << (n))

static uint64_t report(unsigned clause, unsigned tag)
{
    return (uint64_t)clause << 8 | (uint64_t)tag << 16;
}

uint32_t second_lengths(const uint8_t *row)
{
    return (uint32_t)row[2] << 24 | (uint32_t)row[3] << 16 | (uint32_t)row[4] << 8 | row[5];
}

static int has_length_outside(uint32_t lengths)
{
    return (lengths & 1) != 0 || lengths >> (VALUE_MAX + 1) != 0;
}

static unsigned clause_of_checksum(unsigned required, unsigned rule, uint32_t lengths)
{
    if (required == 0)
        return FORMED_8E_OPTIONAL;
    if (lengths != ONLY(1))
        return FORMED_8E_LENGTHS;
    return rule != RULE_RAW ? FORMED_8E_RULE : 0;
}

static unsigned clause_of_object(unsigned rule, uint32_t lengths)
{
    if (rule == RULE_RAW)
        return FORMED_RAW;
    if (rule == RULE_BIRTH && lengths != ONLY(8))
        return FORMED_BIRTH;
    return rule == RULE_EXPIRY && lengths != ONLY(4) ? FORMED_EXPIRY : 0;
}

/* The first clause that the row breaks, or 0. A row outside the format has no other clause. */
static unsigned clause_of_row(const uint8_t *row, int is_checksum)
{
    uint32_t lengths = second_lengths(row);

    if (row[0] > 1 || row[1] > RULE_NOT_D)
        return FORMED_OUTSIDE;
    if (lengths == 0)
        return FORMED_EMPTY;
    if (has_length_outside(lengths))
        return FORMED_RANGE;
    return is_checksum ? clause_of_checksum(row[0], row[1], lengths) : clause_of_object(row[1], lengths);
}

uint64_t second_formed(const uint8_t *table, size_t table_len)
{
    size_t row;

    if (table_len != TABLE_SIZE)
        return report(FORMED_SIZE, 0);
    for (row = 0; row < ROW_COUNT; row++) {
        unsigned clause = clause_of_row(table + row * ROW_SIZE, row == ROW_8E);
        if (clause != 0)
            return report(clause, second_tags[row]);
    }
    return table[TABLE_NUMBER] == 0 ? report(FORMED_NUMBER, 0) : 0;
}
