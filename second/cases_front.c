/* The printed front.
   Written from the documents alone, without a look at the library. */
#include <string.h>

#include "answers.h"
#include "cases.h"
#include "chance.h"
#include "front.h"
#include "list.h"

#define COUNT(list) (sizeof(list) / sizeof((list)[0]))

uint64_t answer_front(const struct test_case *test_case, FILE *out)
{
    size_t length = test_case->numbers[1];
    uint8_t room[LENT_MAX];
    uint64_t answer;

    memset(room, test_case->fill, LENT_MAX);
    answer = second_front(test_case->record, RECORD_SIZE, test_case->numbers[0], room, length);
    print_answer(out, answer);
    putc(' ', out);
    print_room(out, room, length, test_case->fill);
    return answer;
}

static void emit_front(const uint8_t *record, size_t layout, size_t room)
{
    struct test_case *test_case = new_case('T');

    memcpy(test_case->record, record, RECORD_SIZE);
    test_case->numbers[0] = layout;
    test_case->numbers[1] = room;
    test_case->fill = chance_room_byte();
    put_case(stdout, test_case);
}

static void emit_layouts(const uint8_t *record)
{
    emit_front(record, 0, FRONT_SIZE);
    emit_front(record, 1, FRONT_SIZE);
}

static void signs(void)
{
    static const char *const values[] = {
        "1", "9", "4", "6", "7", "8", "M", "X", "A", "C", "K", "L", "E", "N", "D", "F", "S", "P",
        "", "0", "2", "3", "5", "B", "Z", "m", " ", "_", "-", "11", "1 ", " 1", "M10", "MA"
    };
    uint8_t record[RECORD_SIZE];
    size_t i;

    for (i = 0; i < COUNT(values); i++) {
        record_full(record);
        set_text(record, ROW_90, values[i]);
        emit_front(record, i % 2, FRONT_SIZE);
    }
}

static void statuses(void)
{
    static const char *const values[] = {"1", "0", "9", "1000", "3000", "3001", "5010", "5100", "1999", "0000", "0100", "4099"};
    static const char *const insured[] = {"123456", "1234567", "12345678901", "123456789012", "000000"};
    uint8_t record[RECORD_SIZE];
    size_t i;

    for (i = 0; i < COUNT(values); i++) {
        record_full(record);
        set_text(record, ROW_83, values[i]);
        set_text(record, ROW_82, insured[i % COUNT(insured)]);
        emit_layouts(record);
    }
}

static void set_name(uint8_t *record, size_t title, size_t given, size_t prefix, size_t family)
{
    const size_t lengths[4] = {title, given, prefix, family};
    size_t i, k;

    for (i = 0; i < 4; i++) {
        set_absent(record, ROW_84 + i);
        slot_of(record, ROW_84 + i)[0] = (uint8_t)lengths[i];
        for (k = 0; k < lengths[i]; k++)
            slot_of(record, ROW_84 + i)[1 + k] = (uint8_t)("Ttgzpefm"[2 * i + (k + 1 == lengths[i])]);
    }
}

/* Every choice of parts, with 27, 28 and 29 in all, and the longest. */
static void names(void)
{
    static const uint8_t lengths[][4] = {
        {0, 0, 0, 2}, {0, 0, 0, 27}, {0, 0, 0, 28}, {0, 1, 0, 26}, {0, 1, 0, 27}, {0, 14, 0, 12}, {0, 14, 0, 13},
        {0, 14, 0, 14}, {0, 28, 0, 2}, {0, 28, 0, 28}, {15, 0, 0, 11}, {15, 0, 0, 12}, {15, 0, 0, 13}, {2, 0, 0, 25},
        {2, 0, 0, 26}, {0, 0, 15, 12}, {0, 0, 15, 13}, {0, 0, 1, 26}, {0, 0, 1, 27}, {15, 0, 12, 2}, {12, 0, 15, 28},
        {2, 0, 1, 23}, {2, 0, 1, 24}, {15, 12, 0, 2}, {2, 25, 0, 28}, {3, 10, 0, 13}, {3, 10, 0, 14}, {0, 26, 1, 2},
        {0, 12, 15, 28}, {0, 5, 5, 16}, {0, 5, 5, 17}, {2, 1, 1, 21}, {2, 1, 1, 22}, {2, 23, 1, 2}, {15, 1, 10, 28},
        {10, 1, 15, 2}, {4, 4, 4, 13}, {4, 4, 4, 14}, {3, 3, 3, 16}, {3, 3, 3, 15}
    };
    uint8_t record[RECORD_SIZE];
    size_t i;

    for (i = 0; i < COUNT(lengths); i++) {
        record_full(record);
        set_name(record, lengths[i][0], lengths[i][1], lengths[i][2], lengths[i][3]);
        emit_layouts(record);
    }
}

/* Blanks and junk in and behind the values. */
static void texts(void)
{
    uint8_t record[RECORD_SIZE];
    size_t row;

    record_full(record);
    set_text(record, ROW_84, "  ");
    set_text(record, ROW_85, " A ");
    set_text(record, ROW_87, " }~{");
    set_text(record, ROW_80, "[\\]{|}~ &'()+-./ ");
    emit_layouts(record);
    for (row = 0; row < OBJECT_COUNT; row++)
        memset(slot_of(record, row) + 1 + slot_in(record, row)[0], '_', VALUE_MAX - (size_t)slot_in(record, row)[0]);
    emit_layouts(record);
    set_absent(record, ROW_8F);
    set_absent(record, ROW_85);
    memset(slot_of(record, ROW_85) + 1, 'x', VALUE_MAX);
    emit_layouts(record);
    record_s(record);
    emit_layouts(record);
    emit_front(record, 2, FRONT_SIZE);
    emit_front(record, 256, FRONT_SIZE);
    record[RECORD_NUMBER] = 77;
    emit_layouts(record);
}

/* An underscore in each object, printed or not. */
static void underscores(void)
{
    static const uint8_t rows[] = {ROW_80, ROW_84, ROW_85, ROW_86, ROW_87, ROW_89, ROW_8A, ROW_8B, ROW_8C};
    uint8_t record[RECORD_SIZE];
    size_t i;

    for (i = 0; i < COUNT(rows); i++) {
        record_full(record);
        slot_of(record, rows[i])[slot_in(record, rows[i])[0]] = '_';
        emit_layouts(record);
        slot_of(record, rows[i])[1] = '_';
        emit_layouts(record);
    }
}

/* Writing's refusals, then 20, 30, 31, 32: one thing less is wrong each time. */
static void order_of_refusals(void)
{
    uint8_t record[RECORD_SIZE];
    size_t step;

    for (step = 0; step < 11; step++) {
        record_full(record);
        record[0] = step < 1 ? 0x00 : 0x82;
        record[RECORD_LAST] = step < 2 ? 0x55 : 0xFF;
        if (step < 3)
            set_absent(record, ROW_81);
        if (step < 4)
            slot_of(record, ROW_82)[0] = 13;
        if (step < 5)
            slot_of(record, ROW_83)[1] = 'A';
        if (step < 6)
            set_text(record, ROW_88, "01131950");
        set_text(record, ROW_85, step < 7 ? "A name of twenty-four ch" : "A_b");
        if (step < 9)
            set_text(record, ROW_90, "Z");
        if (step < 10)
            set_absent(record, ROW_8D);
        emit_front(record, step % 2, step < 8 ? 111 : FRONT_SIZE);
        emit_front(record, step % 2, FRONT_SIZE);
    }
}

static void rooms(void)
{
    static const size_t lengths[] = {0, 1, 28, 111, 113, 116, 224, 600};
    uint8_t record[RECORD_SIZE];
    size_t i;

    record_full(record);
    for (i = 0; i < COUNT(lengths); i++)
        emit_front(record, i % 2, lengths[i]);
    set_absent(record, ROW_90);
    emit_front(record, 0, 113);
    if (chance_record_of(record, terminal.table, 69)) {
        emit_front(record, 0, 0);
        emit_front(record, 1, FRONT_SIZE);
    }
    if (chance_record_of(record, terminal.table, 214))
        emit_front(record, 1, FRONT_SIZE);
}

static void random_records(void)
{
    uint8_t record[RECORD_SIZE];
    size_t i, k, row;

    for (i = 0; i < 24; i++) {
        if (!chance_record(record, i % 3 == 2 ? terminal.table : issue.table))
            continue;
        for (row = 0; i % 4 != 0 && row < OBJECT_COUNT; row++) {
            uint8_t *slot = slot_of(record, row);
            for (k = 1; k <= slot[0]; k++)
                slot[k] = slot[k] == '_' ? '-' : slot[k];
        }
        emit_layouts(record);
    }
}

/* Bytes behind a value, and behind a length of 0, are no content. */
void behind_cases(void)
{
    uint8_t record[RECORD_SIZE];
    size_t row, other;

    for (row = 0; row <= OBJECT_COUNT; row++) {
        record_full(record);
        for (other = 0; other < OBJECT_COUNT; other++) {
            uint8_t *slot = slot_of(record, other);
            slot[0] = other == row ? 0 : slot[0];
            memset(slot + 1 + slot[0], 0x31, VALUE_MAX - (size_t)slot[0]);
        }
        emit_layouts(record);
        emit_record(&terminal, record);
        emit_record(&issue, record);
    }
}

void front_cases(void)
{
    signs();
    statuses();
    names();
    texts();
    underscores();
    order_of_refusals();
    rooms();
    random_records();
}
