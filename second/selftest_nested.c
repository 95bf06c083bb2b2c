/* Nesting: the rules against a table made by thought, each clause at each row, and what the inner writes against the
   outer. */
#include <stdlib.h>
#include <string.h>

#include "draft.h"
#include "formed.h"
#include "nested.h"
#include "pairs.h"
#include "selftest.h"

static const uint64_t is_nested = UINT64_C(1) << 40;
static uint8_t terminal[TABLE_SIZE], issue[TABLE_SIZE], wide[TABLE_SIZE];

/* Rows: the inner rule; columns: the outer one, from digits to the text other than D. 2: not with length 1. */
static const uint8_t within[8][8] = {
    {1, 1, 0, 0, 0, 0, 0, 1}, {0, 1, 0, 0, 0, 0, 0, 2}, {1, 1, 1, 0, 0, 0, 0, 1}, {0, 1, 0, 1, 0, 0, 0, 2},
    {1, 1, 0, 0, 1, 0, 0, 1}, {1, 1, 0, 0, 0, 1, 0, 1}, {0, 0, 0, 0, 0, 0, 1, 0}, {0, 1, 0, 0, 0, 0, 0, 1}
};

static unsigned expect_row(struct rule_row inner, struct rule_row outer)
{
    unsigned rule = within[inner.rule][outer.rule];

    if ((inner.lengths & ~outer.lengths) != 0)
        return 1;
    if (rule == 0 || (rule == 2 && (inner.lengths & 2) != 0))
        return 2;
    return inner.required < outer.required ? 3 : 0;
}

/* For well-formed tables. */
static uint64_t expect(const uint8_t *inner, const uint8_t *outer)
{
    size_t row = 0;
    unsigned clause = 0;

    while (row < OBJECT_COUNT && (clause = expect_row(row_of_table(inner, row), row_of_table(outer, row))) == 0)
        row++;
    return clause == 0 ? is_nested : told(0, clause, second_tags[row]);
}

static uint64_t nested_of(const uint8_t *inner, size_t inner_len, const uint8_t *outer, size_t outer_len)
{
    uint8_t *own_inner = exact_copy(inner, inner_len);
    uint8_t *own_outer = exact_copy(outer, outer_len);
    uint64_t answer = second_nested(own_inner, inner_len, own_outer, outer_len);

    CHECK(memcmp(own_inner, inner, inner_len) == 0 && memcmp(own_outer, outer, outer_len) == 0);
    free(own_inner);
    free(own_outer);
    return answer;
}

static uint64_t nested(const uint8_t *inner, const uint8_t *outer)
{
    return nested_of(inner, TABLE_SIZE, outer, TABLE_SIZE);
}

static void set_up(void)
{
    static const struct rule_row any_text = {0, RULE_TEXT, UINT32_C(0x1FFFFFFE)};
    size_t row;

    second_edition(EDITION_TERMINAL, terminal, TABLE_SIZE);
    second_edition(EDITION_ISSUE, issue, TABLE_SIZE);
    memcpy(wide, terminal, TABLE_SIZE);
    for (row = 0; row < OBJECT_COUNT; row++)
        row_to_table(wide, row, any_text);
}

/* Document 01's own, and the first row and clause of the others by reading the two tables. */
static void test_known(void)
{
    CHECK(nested(issue, terminal) == is_nested);
    CHECK(nested(terminal, terminal) == is_nested && nested(issue, issue) == is_nested);
    CHECK(nested(terminal, issue) == told(0, 3, 0x8F));
    CHECK(nested(terminal, wide) == is_nested && nested(issue, wide) == is_nested);
    CHECK(nested(wide, terminal) == told(0, 1, 0x80) && nested(wide, issue) == told(0, 1, 0x80));
}

/* Wrong sizes and tables that are not well formed; the inner is told first, and both before any row. */
static void test_not_formed(void)
{
    uint8_t bad[TABLE_SIZE + 1] = {0};
    size_t row;

    CHECK(nested_of(issue, TABLE_SIZE - 1, terminal, TABLE_SIZE) == told(0, 4, 0));
    CHECK(nested_of(issue, TABLE_SIZE, terminal, 0) == told(0, 5, 0));
    CHECK(nested_of(issue, 0, terminal, 0) == told(0, 4, 0));
    memcpy(bad, terminal, TABLE_SIZE);
    CHECK(nested_of(bad, TABLE_SIZE + 1, issue, TABLE_SIZE) == told(0, 4, 0));
    CHECK(nested_of(wide, TABLE_SIZE, bad, TABLE_SIZE + 1) == told(0, 5, 0));
    for (row = 0; row < ROW_COUNT; row++) {
        memcpy(bad, row % 2 ? issue : terminal, TABLE_SIZE);
        CHECK(spoil_row(bad, row, FORMED_RANGE));
        CHECK(nested(bad, terminal) == told(0, 4, 0) && nested(bad, issue) == told(0, 4, 0));
        CHECK(nested(issue, bad) == told(0, 5, 0) && nested(wide, bad) == told(0, 5, 0));
        CHECK(nested(bad, bad) == told(0, 4, 0));
    }
    memcpy(bad, issue, TABLE_SIZE);
    bad[TABLE_NUMBER] = 0;
    CHECK(nested(bad, terminal) == told(0, 4, 0) && nested(issue, bad) == told(0, 5, 0));
    CHECK(nested(bad, bad) == told(0, 4, 0));
}

/* Every two rules with every single length: what was found by trying against what was thought. */
static void test_every_rule(void)
{
    uint8_t inner[TABLE_SIZE], outer[TABLE_SIZE];
    size_t i;

    for (i = 0; i < 8 * 8 * VALUE_MAX; i++) {
        struct rule_row rule_row = {0, (uint8_t)(i % 8), UINT32_C(2) << i / 64};
        memcpy(inner, wide, TABLE_SIZE);
        memcpy(outer, wide, TABLE_SIZE);
        row_to_table(inner, i % OBJECT_COUNT, rule_row);
        rule_row.rule = (uint8_t)(i / 8 % 8);
        row_to_table(outer, i % OBJECT_COUNT, rule_row);
        if (second_formed(inner, TABLE_SIZE) == 0 && second_formed(outer, TABLE_SIZE) == 0)
            CHECK(nested(inner, outer) == expect(inner, outer));
    }
}

/* Each choice of clauses at each row of pairs that are nested, and one clause more at a later row. */
static void test_every_clause(const uint8_t *inside, const uint8_t *outside)
{
    uint8_t inner[TABLE_SIZE], outer[TABLE_SIZE];
    unsigned choice, first;
    size_t i;

    for (i = 0; i < OBJECT_COUNT * 7; i++) {
        size_t row = i / 7;
        choice = (unsigned)(1 + i % 7);
        first = choice % 2 ? 1 : choice % 4 ? 2 : 3;
        memcpy(inner, inside, TABLE_SIZE);
        memcpy(outer, outside, TABLE_SIZE);
        if (choice & 1)
            break_row(inner, outer, row, 1);
        if (choice & 2)
            break_row(inner, outer, row, 2);
        if (choice & 4)
            break_row(inner, outer, row, 3);
        CHECK(nested(inner, outer) == told(0, first, second_tags[row]));
        CHECK(expect(inner, outer) == told(0, first, second_tags[row]));
        if (row + 1 < OBJECT_COUNT)
            break_row(inner, outer, OBJECT_COUNT - 1, (unsigned)(1 + chance(3)));
        CHECK(nested(inner, outer) == told(0, first, second_tags[row]));
    }
}

/* Pairs near each other; each clause has to be met, and nested pairs too. */
static void test_near_pairs(void)
{
    uint8_t inner[TABLE_SIZE], outer[TABLE_SIZE];
    unsigned long met[6] = {0};
    unsigned round;

    for (round = 0; round < 20000; round++) {
        chance_table(outer);
        if (round % 2 == 0)
            memcpy(outer, round % 4 == 0 ? terminal : issue, TABLE_SIZE);
        memcpy(inner, outer, TABLE_SIZE);
        narrow_row(inner, chance(OBJECT_COUNT));
        if (chance(2))
            narrow_table(inner);
        while (chance(3) == 0)
            change_row(round / 4 % 2 ? inner : outer, chance(OBJECT_COUNT));
        CHECK(second_formed(inner, TABLE_SIZE) == 0 && second_formed(outer, TABLE_SIZE) == 0);
        CHECK(nested(inner, outer) == expect(inner, outer));
        met[nested(inner, outer) >> 8 & 0xFF]++;
    }
    CHECK(met[0] > 2000 && met[1] > 400 && met[2] > 400 && met[3] > 400);
}

/* What a nested edition writes, the outer one writes, but for the number. */
static void test_writing(void)
{
    uint8_t inner[TABLE_SIZE], outer[TABLE_SIZE], record[RECORD_SIZE], images[2][IMAGE_SIZE];
    unsigned round;

    for (round = 0; round < 2000; round++) {
        chance_table(outer);
        memcpy(inner, outer, TABLE_SIZE);
        narrow_table(inner);
        CHECK(nested(outer, outer) == is_nested);
        if (nested(inner, outer) != is_nested || !chance_record_of(record, inner, 70 + chance(143)))
            continue;
        CHECK(second_write(inner, TABLE_SIZE, record, RECORD_SIZE, images[0], IMAGE_SIZE) == 0);
        CHECK(second_renumber(outer, TABLE_SIZE, record, RECORD_SIZE) == 0);
        CHECK(second_write(outer, TABLE_SIZE, record, RECORD_SIZE, images[1], IMAGE_SIZE) == 0);
        CHECK(memcmp(images[0], images[1], IMAGE_SIZE) == 0);
    }
}

void test_nested(void)
{
    set_up();
    test_known();
    test_not_formed();
    test_every_rule();
    test_every_clause(issue, terminal);
    test_every_clause(issue, issue);
    test_every_clause(terminal, wide);
    test_near_pairs();
    test_writing();
}
