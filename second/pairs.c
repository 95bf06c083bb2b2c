/* Written from the documents alone, without a look at the library. */
#include "pairs.h"

#include "formed.h"
#include "nested.h"

#define BIT(n) (UINT32_C(1) << (n))

static const uint32_t all_lengths = UINT32_C(0x1FFFFFFE);

static int is_date(unsigned rule)
{
    return rule == RULE_BIRTH || rule == RULE_EXPIRY;
}

static uint32_t any_length(uint32_t lengths)
{
    size_t length;

    do
        length = 1 + chance(VALUE_MAX);
    while ((lengths >> length & 1) == 0);
    return BIT(length);
}

static uint8_t narrower_rule(unsigned rule)
{
    static const uint8_t within_text[] = {RULE_DIGITS, RULE_LEAD, RULE_CODE, RULE_NOT_D};

    if (rule == RULE_TEXT)
        return within_text[chance(sizeof within_text)];
    if (rule == RULE_NOT_D)
        return (uint8_t)(chance(2) ? RULE_DIGITS : RULE_LEAD);
    return (uint8_t)(rule == RULE_DIGITS ? RULE_LEAD : rule);
}

void narrow_row(uint8_t *table, size_t row)
{
    struct rule_row rule_row = row_of_table(table, row);
    uint32_t fewer = rule_row.lengths & (uint32_t)chance(UINT32_C(0x80000000));

    if (fewer != 0 && chance(2))
        rule_row.lengths = fewer;
    if (chance(3) == 0)
        rule_row.required = 1;
    if (chance(4) == 0)
        rule_row.rule = narrower_rule(rule_row.rule);
    if (chance(4) == 0 && !is_date(rule_row.rule) && (rule_row.lengths & (BIT(4) | BIT(8))) != 0) {
        rule_row.lengths = any_length(rule_row.lengths & (BIT(4) | BIT(8)));
        rule_row.rule = (uint8_t)(rule_row.lengths == BIT(8) ? RULE_BIRTH : RULE_EXPIRY);
    }
    row_to_table(table, row, rule_row);
}

void narrow_table(uint8_t *table)
{
    size_t row;

    for (row = 0; row < OBJECT_COUNT; row++)
        narrow_row(table, row);
}

void change_row(uint8_t *table, size_t row)
{
    static const uint8_t rules[] = {
        RULE_DIGITS, RULE_TEXT, RULE_LEAD, RULE_CODE, RULE_BIRTH, RULE_EXPIRY, RULE_NOT_D
    };
    struct rule_row rule_row = row_of_table(table, row);
    size_t sort = chance(3);

    if (sort == 0)
        rule_row.required ^= 1;
    if (sort == 1)
        rule_row.rule = rules[chance(sizeof rules)];
    if (sort == 2)
        rule_row.lengths ^= any_length(all_lengths);
    if (is_date(rule_row.rule))
        rule_row.lengths = rule_row.rule == RULE_BIRTH ? BIT(8) : BIT(4);
    if (rule_row.lengths == 0)
        rule_row.lengths = any_length(all_lengths);
    row_to_table(table, row, rule_row);
}

/* A length more inside, or one less outside. */
static void break_lengths(struct rule_row *inner, struct rule_row *outer)
{
    uint32_t left_out = all_lengths & ~outer->lengths;
    uint32_t lost;

    if (left_out != 0 && !is_date(inner->rule) && chance(2)) {
        inner->lengths |= any_length(left_out);
        return;
    }
    lost = any_length(inner->lengths);
    if (is_date(outer->rule))
        outer->rule = RULE_DIGITS;
    outer->lengths &= ~lost;
    if (outer->lengths == 0)
        outer->lengths = any_length(all_lengths & ~lost);
}

/* Code begins with no 3, lead with no 9; each breaks whatever is not the same rule. */
static void break_values(struct rule_row *inner, struct rule_row *outer)
{
    if (inner->rule == RULE_CODE)
        outer->rule = RULE_LEAD;
    else if (inner->rule == RULE_LEAD)
        outer->rule = RULE_CODE;
    else
        outer->rule = (uint8_t)(chance(2) ? RULE_CODE : RULE_LEAD);
}

void break_row(uint8_t *inner, uint8_t *outer, size_t row, unsigned clause)
{
    struct rule_row inner_row = row_of_table(inner, row), outer_row = row_of_table(outer, row);

    if (clause == NESTED_LENGTH)
        break_lengths(&inner_row, &outer_row);
    if (clause == NESTED_VALUE)
        break_values(&inner_row, &outer_row);
    if (clause == NESTED_REQUIRED) {
        inner_row.required = 0;
        outer_row.required = 1;
    }
    row_to_table(inner, row, inner_row);
    row_to_table(outer, row, outer_row);
}

static void spoil_checksum(struct rule_row *rule_row, unsigned clause)
{
    if (clause == FORMED_8E_OPTIONAL)
        rule_row->required = 0;
    if (clause == FORMED_8E_LENGTHS)
        rule_row->lengths = chance(2) ? BIT(2) : BIT(1) | BIT(28);
    if (clause == FORMED_8E_RULE)
        rule_row->rule = (uint8_t)chance(RULE_RAW);
}

static void spoil_object(struct rule_row *rule_row, unsigned clause)
{
    if (clause == FORMED_RAW)
        rule_row->rule = RULE_RAW;
    if (clause == FORMED_BIRTH)
        *rule_row = (struct rule_row){1, RULE_BIRTH, chance(2) ? BIT(4) : BIT(8) | BIT(7)};
    if (clause == FORMED_EXPIRY)
        *rule_row = (struct rule_row){0, RULE_EXPIRY, chance(2) ? BIT(8) : BIT(4) | BIT(5)};
}

int spoil_row(uint8_t *table, size_t row, unsigned clause)
{
    static const uint8_t beyond[] = {0, 29, 30, 31};
    struct rule_row rule_row = row_of_table(table, row);
    size_t bit = beyond[chance(sizeof beyond)];
    int is_checksums = clause >= FORMED_8E_OPTIONAL && clause <= FORMED_8E_RULE;
    int is_objects = clause >= FORMED_RAW && clause <= FORMED_EXPIRY;

    if ((row == ROW_8E && is_objects) || (row != ROW_8E && is_checksums))
        return 0;
    if (clause == FORMED_EMPTY)
        rule_row.lengths = 0;
    else if (clause == FORMED_RANGE)
        rule_row.lengths = (chance(2) ? rule_row.lengths : 0) | BIT(bit);
    else if (clause == FORMED_OUTSIDE && chance(2))
        rule_row.required = (uint8_t)(2 + chance(254));
    else if (clause == FORMED_OUTSIDE)
        rule_row.rule = (uint8_t)(RULE_NOT_D + 1 + chance(248));
    else if (is_checksums)
        spoil_checksum(&rule_row, clause);
    else
        spoil_object(&rule_row, clause);
    row_to_table(table, row, rule_row);
    return 1;
}
