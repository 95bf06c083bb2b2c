/* The edition's number in tables and records.
   Written from the documents alone, without a look at the library. */
#include <string.h>

#include "cases.h"
#include "chance.h"

#define COUNT(list) (sizeof(list) / sizeof((list)[0]))

static const uint8_t numbers[] = {0, 1, 2, 3, 127, 128, 254, 255};

static void emit_renumber(const struct edition *edition, const uint8_t *record)
{
    struct test_case *test_case = new_case('N');

    test_case->editions[0] = *edition;
    memcpy(test_case->record, record, RECORD_SIZE);
    put_case(stdout, test_case);
}

static struct edition numbered(const struct edition *edition, uint8_t number)
{
    struct edition copy = *edition;

    copy.selector = 0;
    copy.table[TABLE_NUMBER] = number;
    return copy;
}

static void all_three(const struct edition *edition, const uint8_t *record)
{
    emit_card(edition, record);
    emit_as_numbered(edition, record, IMAGE_SIZE);
    emit_renumber(edition, record);
}

/* Each number of an edition against each of a record. */
static void numbers_met_and_missed(void)
{
    uint8_t record[RECORD_SIZE];
    struct edition edition;
    size_t i, k;

    record_full(record);
    for (i = 0; i < COUNT(numbers); i++) {
        edition = numbered(turn(i), numbers[i]);
        for (k = 0; k < COUNT(numbers); k++) {
            record[RECORD_NUMBER] = numbers[k];
            emit_as_numbered(&edition, record, IMAGE_SIZE);
            if ((i + k) % 2 == 0)
                emit_renumber(&edition, record);
        }
        emit_card(&edition, record);
    }
}

static void spoil_row(uint8_t *table, size_t row)
{
    struct rule_row rule_row = row_of_table(table, row);

    rule_row.lengths = 0;
    row_to_table(table, row, rule_row);
}

/* An edition numbered 0 is told only if all its rows are right. */
static void number_0(void)
{
    uint8_t record[RECORD_SIZE];
    struct edition edition;
    size_t row;

    record_s(record);
    edition = numbered(&terminal, 0);
    all_three(&edition, record);
    record[0] = 0x00;
    all_three(&edition, record);
    for (row = 0; row < ROW_COUNT; row += 4) {
        edition = numbered(turn(row / 4), 0);
        spoil_row(edition.table, row);
        all_three(&edition, record);
    }
    memset(edition.table, 0, TABLE_SIZE);
    edition.table[TABLE_NUMBER] = 1;
    all_three(&edition, record);
}

/* 20, 2, 22, 3 and on: one thing less is wrong each time. */
static void order_of_22(void)
{
    uint8_t record[RECORD_SIZE];
    struct edition bad;
    size_t step;

    for (step = 0; step < 8; step++) {
        bad = numbered(&issue, step == 2 ? 0 : 2);
        if (step < 2)
            spoil_row(bad.table, ROW_8C);
        record_full(record);
        set_text(record, ROW_88, step < 7 ? "32011950" : "31011950");
        if (step < 6)
            set_absent(record, ROW_81);
        record[RECORD_LAST] = step < 5 ? 0x55 : 0x00;
        record[RECORD_NUMBER] = step < 4 ? 1 : 2;
        emit_as_numbered(&bad, record, step == 0 ? 255 : IMAGE_SIZE);
        emit_renumber(&bad, record);
        emit_card(&bad, record);
    }
}

/* Every refusal that putting a number on can give, and records that keep what lies behind their values. */
static void renumbered(void)
{
    static const char *const births[] = {"05001950", "0500195A", "050019501"};
    static const uint8_t rows[] = {ROW_80, ROW_8F, ROW_83, ROW_90, ROW_85, ROW_8A, ROW_8D};
    uint8_t record[RECORD_SIZE];
    size_t i;

    for (i = 0; i < COUNT(rows); i++) {
        record_full(record);
        record[RECORD_NUMBER] = (uint8_t)i;
        set_absent(record, rows[i]);
        memset(slot_of(record, ROW_82) + 10, 0xA5, 10);
        emit_renumber(&terminal, record);
        emit_renumber(&issue, record);
    }
    for (i = 0; i < COUNT(births); i++) {
        record_full(record);
        set_text(record, ROW_88, births[i]);
        emit_renumber(turn(i), record);
    }
    record_full(record);
    set_text(record, ROW_8A, "D");
    emit_renumber(&terminal, record);
    emit_renumber(&issue, record);
    set_text(record, ROW_85, "A name of twenty-four ch");
    emit_renumber(&terminal, record);
    set_text(record, ROW_8A, "F");
    emit_renumber(&issue, record);
    slot_of(record, ROW_87)[0] = 200;
    emit_renumber(&issue, record);
}

static void template_lengths(void)
{
    static const uint8_t lengths[] = {51, 69, 70, 93, 128, 212, 213, 214};
    uint8_t record[RECORD_SIZE];
    size_t i;

    for (i = 0; i < COUNT(lengths); i++) {
        if (!chance_record_of(record, terminal.table, lengths[i]))
            continue;
        emit_renumber(&wide, record);
        emit_renumber(&terminal, record);
    }
}

/* A record of the one edition under the other. */
static void changed_editions(void)
{
    uint8_t record[RECORD_SIZE];
    size_t i;

    for (i = 0; i < 12; i++) {
        if (!chance_record(record, turn(i)->table))
            continue;
        emit_as_numbered(turn(i + 1), record, IMAGE_SIZE);
        emit_renumber(turn(i + 1), record);
        emit_renumber(turn(i), record);
    }
}

void number_cases(void)
{
    numbers_met_and_missed();
    number_0();
    order_of_22();
    renumbered();
    template_lengths();
    changed_editions();
}
