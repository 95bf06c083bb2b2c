/* Well-formed tables: each clause at each row, the order of clauses and rows, and what reading says of the same table. */
#include <stdlib.h>
#include <string.h>

#include "chance.h"
#include "formed.h"
#include "pairs.h"
#include "selftest.h"

#define BIT(n) (UINT32_C(1) << (n))

static uint8_t terminal[TABLE_SIZE], issue[TABLE_SIZE];

static uint64_t formed(const uint8_t *table, size_t length)
{
    uint8_t *own = exact_copy(table, length);
    uint64_t answer = second_formed(own, length);

    CHECK(memcmp(own, table, length) == 0);
    free(own);
    return answer;
}

/* Reading says 2 with the same tag, or it does not say 2. */
static void test_against_reading(const uint8_t *table)
{
    static const uint8_t image[IMAGE_SIZE] = {0};
    uint8_t record[RECORD_SIZE];
    uint64_t report = formed(table, TABLE_SIZE);
    uint64_t answer = second_read(table, TABLE_SIZE, image, IMAGE_SIZE, record, RECORD_SIZE);

    if (report == 0)
        CHECK((answer & 0xFF) == 3);
    else
        CHECK(answer == told(2, 0, (unsigned)(report >> 16)));
}

static void test_sizes(void)
{
    uint8_t bytes[TABLE_SIZE + 1] = {0};

    memcpy(bytes, issue, TABLE_SIZE);
    CHECK(formed(terminal, TABLE_SIZE) == 0 && formed(issue, TABLE_SIZE) == 0 && formed(bytes, TABLE_SIZE) == 0);
    CHECK(formed(bytes, 0) == told(0, 10, 0) && formed(bytes, TABLE_SIZE - 1) == told(0, 10, 0));
    CHECK(formed(bytes, TABLE_SIZE + 1) == told(0, 10, 0));
    memset(bytes, 0, TABLE_SIZE);
    CHECK(formed(bytes, TABLE_SIZE - 1) == told(0, 10, 0) && formed(bytes, TABLE_SIZE) == told(0, 1, 0x80));
}

/* The clause that is told of a table with this one row changed, with a number and without. */
static void test_row(size_t row, struct rule_row rule_row, unsigned clause)
{
    uint8_t table[TABLE_SIZE];

    memcpy(table, row % 2 ? terminal : issue, TABLE_SIZE);
    row_to_table(table, row, rule_row);
    CHECK(formed(table, TABLE_SIZE) == (clause == 0 ? 0 : told(0, clause, second_tags[row])));
    test_against_reading(table);
    table[TABLE_NUMBER] = 0;
    CHECK(formed(table, TABLE_SIZE) == (clause == 0 ? told(0, 9, 0) : told(0, clause, second_tags[row])));
    test_against_reading(table);
}

struct row_told {
    struct rule_row row;
    unsigned clause;
};

/* Where more than one clause is broken, the first in document 01's order. */
static void test_objects(void)
{
    static const struct row_told rows[] = {
        {{1, RULE_TEXT, 0}, 1}, {{0, RULE_RAW, 0}, 1}, {{1, RULE_BIRTH, 0}, 1}, {{1, RULE_EXPIRY, 0}, 1},
        {{1, RULE_TEXT, BIT(0)}, 2}, {{0, RULE_TEXT, BIT(29) | BIT(28)}, 2}, {{1, RULE_DIGITS, BIT(30)}, 2},
        {{0, RULE_RAW, BIT(31) | BIT(1)}, 2}, {{1, RULE_BIRTH, BIT(8) | BIT(0)}, 2}, {{1, RULE_EXPIRY, BIT(29)}, 2},
        {{1, RULE_RAW, BIT(1)}, 6}, {{0, RULE_RAW, BIT(2)}, 6}, {{0, RULE_BIRTH, BIT(7)}, 7},
        {{1, RULE_BIRTH, BIT(8) | BIT(4)}, 7}, {{0, RULE_EXPIRY, BIT(8)}, 8}, {{1, RULE_EXPIRY, BIT(4) | BIT(5)}, 8},
        {{2, RULE_TEXT, BIT(1)}, 11}, {{255, RULE_RAW, 0}, 11}, {{1, 8, BIT(4)}, 11}, {{0, 255, BIT(0)}, 11},
        {{0, RULE_BIRTH, BIT(8)}, 0}, {{1, RULE_EXPIRY, BIT(4)}, 0}, {{1, RULE_TEXT, UINT32_C(0x1FFFFFFE)}, 0},
        {{0, RULE_NOT_D, BIT(28)}, 0}, {{1, RULE_LEAD, BIT(1)}, 0}, {{0, RULE_CODE, BIT(8)}, 0}
    };
    size_t i;

    for (i = 0; i < COUNT(rows) * OBJECT_COUNT; i++)
        test_row(i % OBJECT_COUNT, rows[i / OBJECT_COUNT].row, rows[i / OBJECT_COUNT].clause);
}

static void test_checksum(void)
{
    static const struct row_told rows[] = {
        {{1, RULE_RAW, 0}, 1}, {{0, RULE_TEXT, 0}, 1}, {{1, RULE_RAW, BIT(1) | BIT(0)}, 2}, {{0, RULE_RAW, BIT(29)}, 2},
        {{0, RULE_RAW, BIT(1)}, 3}, {{0, RULE_TEXT, BIT(2)}, 3}, {{0, RULE_BIRTH, BIT(7)}, 3},
        {{1, RULE_RAW, BIT(2)}, 4}, {{1, RULE_RAW, BIT(1) | BIT(2)}, 4}, {{1, RULE_BIRTH, BIT(8)}, 4},
        {{1, RULE_EXPIRY, BIT(5)}, 4}, {{1, RULE_TEXT, BIT(1)}, 5}, {{1, RULE_NOT_D, BIT(1)}, 5},
        {{1, RULE_BIRTH, BIT(1)}, 5}, {{1, RULE_EXPIRY, BIT(1)}, 5}, {{2, RULE_RAW, BIT(1)}, 11},
        {{1, 8, BIT(1)}, 11}, {{0, 9, 0}, 11}, {{1, RULE_RAW, BIT(1)}, 0}
    };
    size_t i;

    for (i = 0; i < COUNT(rows); i++)
        test_row(ROW_8E, rows[i].row, rows[i].clause);
}

/* The first bad row, whatever clauses later rows break, the one of 8E too. */
static void test_first_row(void)
{
    uint8_t table[TABLE_SIZE];
    unsigned round;

    for (round = 0; round < 5000; round++) {
        size_t row = chance(ROW_COUNT), later = row + chance(ROW_COUNT - row);
        unsigned clause = (unsigned)(1 + chance(FORMED_OUTSIDE));
        memcpy(table, chance(2) ? terminal : issue, TABLE_SIZE);
        if (clause == FORMED_NUMBER || clause == FORMED_SIZE || !spoil_row(table, row, clause))
            continue;
        CHECK(formed(table, TABLE_SIZE) == told(0, clause, second_tags[row]));
        if (later > row)
            spoil_row(table, later, (unsigned)(1 + chance(FORMED_EXPIRY)));
        CHECK(formed(table, TABLE_SIZE) == told(0, clause, second_tags[row]));
        test_against_reading(table);
    }
}

static void test_random_tables(void)
{
    uint8_t table[TABLE_SIZE];
    unsigned round;
    size_t at;

    for (round = 0; round < 5000; round++) {
        chance_table(table);
        CHECK(formed(table, TABLE_SIZE) == 0);
        change_row(table, chance(OBJECT_COUNT));
        CHECK(formed(table, TABLE_SIZE) == 0);
        test_against_reading(table);
        at = chance(TABLE_SIZE);
        table[at] = (uint8_t)chance(round % 2 ? 9 : 256);
        test_against_reading(table);
    }
}

void test_formed(void)
{
    second_edition(EDITION_TERMINAL, terminal, TABLE_SIZE);
    second_edition(EDITION_ISSUE, issue, TABLE_SIZE);
    test_sizes();
    test_objects();
    test_checksum();
    test_first_row();
    test_random_tables();
}
