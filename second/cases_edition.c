/* Editions that are not well formed, and editions other than the shipped ones.
   Written from document 01 alone, without a look at the library. */
#include <string.h>

#include "cases.h"
#include "chance.h"

#define COUNT(list) (sizeof(list) / sizeof((list)[0]))

#define BIT(n) (UINT32_C(1) << (n))

enum { CAUSE_COUNT = 17 };

/* Causes that any row can have. */
static void spoil_any(struct rule_row *row, size_t cause)
{
    static const uint8_t bits[] = {0, 29, 30, 31};

    if (cause < 2)
        row->required = cause == 0 ? 2 : 255;
    else if (cause < 4)
        row->rule = cause == 2 ? 8 : 255;
    else if (cause == 4)
        row->lengths = 0;
    else if (cause < 9)
        row->lengths |= BIT(bits[cause - 5]);
    else if (cause == 9)
        row->lengths = BIT(0);
    else
        row->lengths = BIT(29);
}

static const struct rule_row *own_cause(size_t row, size_t cause)
{
    static const struct rule_row others[] = {
        {1, RULE_RAW, 2}, {0, RULE_BIRTH, BIT(8) | BIT(9)}, {0, RULE_BIRTH, BIT(7)},
        {1, RULE_EXPIRY, BIT(4) | BIT(3)}, {0, RULE_EXPIRY, BIT(5)}, {1, RULE_RAW, BIT(2)}
    };
    static const struct rule_row checksums[] = {
        {0, RULE_RAW, 2}, {1, RULE_RAW, BIT(1) | BIT(2)}, {1, RULE_RAW, BIT(2)}, {1, RULE_TEXT, 2},
        {1, RULE_BIRTH, BIT(8)}, {1, RULE_NOT_D, 2}
    };

    return row == ROW_8E ? &checksums[cause] : &others[cause];
}

static void spoil(uint8_t *table, size_t row, size_t cause)
{
    struct rule_row rule_row = row_of_table(table, row);

    if (cause < 11)
        spoil_any(&rule_row, cause);
    else
        rule_row = *own_cause(row, cause - 11);
    row_to_table(table, row, rule_row);
}

static struct edition copy_of(const struct edition *edition)
{
    struct edition copy = *edition;

    copy.selector = 0;
    return copy;
}

/* A card or a record that is wrong elsewhere too: the edition speaks first. */
static void emit_under(const struct edition *edition, size_t count)
{
    uint8_t record[RECORD_SIZE];

    record_s(record);
    if (count / 2 % 2 == 0)
        record[0] = 0x00;
    if (count % 2 == 0)
        emit_card(edition, record);
    else
        emit_record(edition, record);
}

static void spoiled_rows(void)
{
    struct edition edition;
    size_t row, cause;

    for (row = 0; row < ROW_COUNT; row++) {
        for (cause = 0; cause < CAUSE_COUNT; cause++) {
            edition = copy_of(turn(row + cause / 2));
            spoil(edition.table, row, cause);
            emit_under(&edition, row + cause);
        }
    }
}

static void two_spoiled_rows(void)
{
    struct edition edition;
    size_t i;

    for (i = 0; i < 16; i++) {
        size_t cause = chance(CAUSE_COUNT);
        edition = copy_of(&terminal);
        spoil(edition.table, chance(ROW_COUNT), cause);
        spoil(edition.table, i, chance(CAUSE_COUNT));
        emit_under(&edition, i);
    }
    memset(edition.table, 0, TABLE_SIZE);
    emit_under(&edition, 0);
    emit_under(&edition, 1);
    memset(edition.table, 0xFF, TABLE_SIZE);
    emit_under(&edition, 0);
    emit_under(&edition, 1);
}

/* The shipped tables handed over as bytes. */
static void shipped_tables(void)
{
    uint8_t record[RECORD_SIZE];
    struct edition edition;
    size_t i;

    for (i = 0; i < 2; i++) {
        edition = copy_of(turn(i));
        record_full(record);
        emit_both(&edition, record);
        record_s(record);
        emit_both(&edition, record);
    }
}

/* Rows at the edge of well-formed, each met by its object and missed by one. */
static void edge_rows(void)
{
    static const struct rule_row rows[] = {
        {1, RULE_BIRTH, BIT(8)}, {0, RULE_EXPIRY, BIT(4)}, {1, RULE_TEXT, BIT(28)}, {0, RULE_DIGITS, BIT(1)},
        {1, RULE_LEAD, UINT32_C(0x1FFFFFFE)}, {0, RULE_CODE, BIT(3) | BIT(17)}, {1, RULE_LEAD, BIT(2) | BIT(28)},
        {0, RULE_CODE, BIT(1) | BIT(28)}, {1, RULE_NOT_D, BIT(1)}, {0, RULE_NOT_D, BIT(1) | BIT(2)},
        {1, RULE_NOT_D, BIT(28)}
    };
    static const uint8_t lengths[] = {8, 4, 28, 1, 9, 17, 2, 1, 1, 2, 28};
    uint8_t record[RECORD_SIZE];
    struct edition edition;
    size_t row, i;

    for (row = 0; row < OBJECT_COUNT; row++) {
        i = (row + chance(2)) % COUNT(rows);
        edition = copy_of(&wide);
        row_to_table(edition.table, row, rows[i]);
        record_around(record, row);
        chance_fill(record, edition.table, row, lengths[i]);
        if (row % 2 == 0)
            emit_card(&edition, record);
        else
            emit_record(&edition, record);
        slot_of(record, row)[1] = row % 2 == 0 ? 0x32 : 0x5A;
        emit_record(&edition, record);
        slot_of(record, row)[0] = (uint8_t)(lengths[i] + 1);
        emit_record(&edition, record);
        set_absent(record, row);
        emit_card(&edition, record);
    }
}

static void spoil_record(uint8_t *record, const uint8_t *table)
{
    size_t row = chance(OBJECT_COUNT);
    uint8_t *slot = slot_of(record, row);
    uint8_t byte;

    switch (chance(4)) {
    case 0:
        set_absent(record, row);
        break;
    case 1:
        chance_fill(record, table, row, 1 + chance(VALUE_MAX));
        break;
    case 2:
        chance_value((unsigned)chance(6), slot + 1, slot[0]);
        break;
    default:
        byte = (uint8_t)chance(128);
        slot[1 + chance(slot[0] != 0 ? slot[0] : 1)] = byte;
        break;
    }
}

/* Any row but 8E may take text other than the single D; there the row is wide in the lengths. */
static void rows_without_d(void)
{
    static const struct rule_row not_d = {0, RULE_NOT_D, UINT32_C(0x1FFFFFFE)};
    static const char *const values[] = {"D", "d", "DD", "D@", "@"};
    uint8_t record[RECORD_SIZE];
    struct edition edition;
    size_t row, i;

    for (row = 0; row < OBJECT_COUNT; row++) {
        edition = copy_of(&wide);
        row_to_table(edition.table, row, not_d);
        for (i = 0; i < COUNT(values); i++) {
            record_around(record, row);
            set_text(record, row, values[i]);
            if ((row + i) % 2 == 0)
                emit_card(&edition, record);
            else
                emit_record(&edition, record);
        }
    }
}

static void random_editions(void)
{
    uint8_t record[RECORD_SIZE];
    struct edition edition = copy_of(&wide);
    size_t i;

    for (i = 0; i < 50; i++) {
        do
            chance_table(edition.table);
        while (!chance_record(record, edition.table));
        emit_both(&edition, record);
        spoil_record(record, edition.table);
        if (i % 2 == 0)
            emit_card(&edition, record);
        else
            emit_record(&edition, record);
    }
}

void edition_cases(void)
{
    spoiled_rows();
    two_spoiled_rows();
    shipped_tables();
    edge_rows();
    rows_without_d();
    random_editions();
}
