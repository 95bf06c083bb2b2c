/* Rules are compared by trying values.
   Written from the documents alone, without a look at the library. */
#include "nested.h"

#include <string.h>

#include "formed.h"

enum { RULE_COUNT = RULE_NOT_D + 1, UNKNOWN = 0, WITHIN, NOT_WITHIN };

static int is_against(unsigned inner, unsigned outer, const uint8_t *value, size_t length)
{
    return second_takes(inner, value, length) && !second_takes(outer, value, length);
}

/* Every byte at the front and at the end, some within. */
static int is_worth_a_try(size_t index, size_t length, unsigned byte)
{
    return index < 8 || index + 1 == length || strchr("0159ADMZaz _", (int)byte) != NULL;
}

/* From a value each value that differs in one byte. */
static int change_one_byte(unsigned inner, unsigned outer, const uint8_t *from, size_t length)
{
    uint8_t value[VALUE_MAX];
    unsigned byte;
    size_t i;

    memcpy(value, from, length);
    for (i = 0; i < length; i++) {
        for (byte = 0; byte < 256; byte++) {
            value[i] = (uint8_t)byte;
            if (is_worth_a_try(i, length, byte) && is_against(inner, outer, value, length))
                return 1;
        }
        value[i] = from[i];
    }
    return 0;
}

/* Every four digits in front. */
static int change_four_digits(unsigned inner, unsigned outer, size_t length)
{
    uint8_t value[VALUE_MAX];
    unsigned number;

    memset(value, '0', length);
    for (number = 0; length >= 4 && number < 10000; number++) {
        value[0] = (uint8_t)('0' + number / 1000);
        value[1] = (uint8_t)('0' + number / 100 % 10);
        value[2] = (uint8_t)('0' + number / 10 % 10);
        value[3] = (uint8_t)('0' + number % 10);
        if (is_against(inner, outer, value, length))
            return 1;
    }
    return 0;
}

/* Whether a value of this length was found that the inner rule takes and the outer does not. */
static int find_against(unsigned inner, unsigned outer, size_t length)
{
    static const uint8_t fills[] = {'0', '1', 'A', ' ', 0xFF};
    uint8_t value[VALUE_MAX];
    size_t i;

    for (i = 0; i < sizeof fills; i++) {
        memset(value, fills[i], length);
        if (change_one_byte(inner, outer, value, length))
            return 1;
        value[0] = '1';
        if (change_one_byte(inner, outer, value, length))
            return 1;
    }
    return (length == 4 || length == 8) && change_four_digits(inner, outer, length);
}

/* What was tried once is kept. */
static int rule_is_within(unsigned inner, unsigned outer, size_t length)
{
    static uint8_t known[RULE_COUNT][RULE_COUNT][VALUE_MAX + 1];
    uint8_t *found = &known[inner][outer][length];

    if (*found == UNKNOWN)
        *found = find_against(inner, outer, length) ? NOT_WITHIN : WITHIN;
    return *found == WITHIN;
}

/* Whatever value of an inner length the inner rule takes, the outer takes. */
static int values_are_within(const uint8_t *inner, const uint8_t *outer)
{
    uint32_t lengths = second_lengths(inner);
    size_t length;

    for (length = 1; length <= VALUE_MAX; length++) {
        if ((lengths >> length & 1) != 0 && !rule_is_within(inner[1], outer[1], length))
            return 0;
    }
    return 1;
}

/* The first clause that fails in this row, or 0. */
static unsigned clause_of_row(const uint8_t *inner, const uint8_t *outer)
{
    if ((second_lengths(inner) & ~second_lengths(outer)) != 0)
        return NESTED_LENGTH;
    if (!values_are_within(inner, outer))
        return NESTED_VALUE;
    return outer[0] == 1 && inner[0] == 0 ? NESTED_REQUIRED : 0;
}

static uint64_t not_nested(unsigned clause, unsigned tag)
{
    return (uint64_t)clause << 8 | (uint64_t)tag << 16;
}

uint64_t second_nested(const uint8_t *inner, size_t inner_len, const uint8_t *outer, size_t outer_len)
{
    size_t row;

    if (second_formed(inner, inner_len) != 0)
        return not_nested(NESTED_INNER, 0);
    if (second_formed(outer, outer_len) != 0)
        return not_nested(NESTED_OUTER, 0);
    for (row = 0; row < ROW_COUNT; row++) {
        unsigned clause = clause_of_row(inner + row * ROW_SIZE, outer + row * ROW_SIZE);
        if (clause != 0)
            return not_nested(clause, second_tags[row]);
    }
    return UINT64_C(1) << 40;
}
