/* Written from the documents alone, without a look at the library. */
#include "front.h"

#include <string.h>

/* Columns of line four, counted from 0. */
enum { FUND_AT = 0, INSURED_AT = 7, STATUS_AT = 19, ADDITION_AT = 23, VALIDITY_AT = 24 };

static const uint8_t *slot_of_row(const uint8_t *record, size_t row)
{
    return record + RECORD_SLOTS + row * SLOT_SIZE;
}

/* What writing under terminal says, but for the number and the buffer. */
static uint64_t check_writing(const uint8_t *record)
{
    uint8_t table[TABLE_SIZE], copy[RECORD_SIZE];

    second_edition(EDITION_TERMINAL, table, TABLE_SIZE);
    memcpy(copy, record, RECORD_SIZE);
    return second_renumber(table, TABLE_SIZE, copy, RECORD_SIZE);
}

/* The printed sign, or 0. */
static uint8_t printed_sign(uint8_t addition)
{
    static const char stored[] = "194678MAKEDSXCLNFP";
    static const char printed[] = "194678111111999999";
    const char *found = memchr(stored, addition, sizeof stored - 1);

    return found == NULL ? 0 : (uint8_t)printed[found - stored];
}

static int has_underscore(const uint8_t *slot)
{
    return memchr(slot + 1, '_', slot[0]) != NULL;
}

static uint64_t check_printing(const uint8_t *record, int with_fund)
{
    static const uint8_t printed[] = {ROW_84, ROW_85, ROW_86, ROW_87, ROW_81, ROW_82, ROW_83, ROW_90, ROW_8D};
    const uint8_t *addition = slot_of_row(record, ROW_90);
    size_t i;

    if (addition[0] != 1 || printed_sign(addition[1]) == 0)
        return 30;
    if (slot_of_row(record, ROW_8D)[0] == 0)
        return 31;
    for (i = 0; i < sizeof printed; i++) {
        if (has_underscore(slot_of_row(record, printed[i])))
            return 32;
    }
    return with_fund && has_underscore(slot_of_row(record, ROW_80)) ? 32 : 0;
}

static void put_value(uint8_t *line, size_t at, const uint8_t *slot)
{
    memcpy(line + at, slot + 1, slot[0]);
}

/* The record's name as far as the row before until, with single blanks; answers how long it is. */
static size_t join_name(const uint8_t *record, size_t until, uint8_t *joined)
{
    size_t length = 0;
    size_t row;

    for (row = ROW_84; row < until; row++) {
        const uint8_t *slot = slot_of_row(record, row);
        if (slot[0] == 0)
            continue;
        if (length > 0)
            joined[length++] = ' ';
        memcpy(joined + length, slot + 1, slot[0]);
        length += slot[0];
    }
    return length;
}

/* On one line if it fits, else the family name on the second. */
static void put_name(const uint8_t *record, uint8_t *lines)
{
    uint8_t joined[4 * (VALUE_MAX + 1)];
    size_t length = join_name(record, ROW_87 + 1, joined);

    if (length > LINE_SIZE) {
        length = join_name(record, ROW_87, joined);
        put_value(lines + LINE_SIZE, 0, slot_of_row(record, ROW_87));
    }
    memcpy(lines, joined, length);
}

static void put_line_four(const uint8_t *record, uint8_t *line)
{
    const uint8_t *status = slot_of_row(record, ROW_83);

    put_value(line, FUND_AT, slot_of_row(record, ROW_81));
    put_value(line, INSURED_AT, slot_of_row(record, ROW_82));
    line[STATUS_AT] = status[1];
    if (status[0] > 1 && status[2] != '0')
        put_value(line, STATUS_AT, status);
    line[ADDITION_AT] = printed_sign(slot_of_row(record, ROW_90)[1]);
    put_value(line, VALIDITY_AT, slot_of_row(record, ROW_8D));
}

uint64_t second_front(const uint8_t *record, size_t record_len, uint64_t layout, uint8_t *room, size_t room_len)
{
    uint64_t answer;

    if (record_len != RECORD_SIZE)
        return 20;
    answer = check_writing(record);
    if (answer == 0 && room_len != FRONT_SIZE)
        answer = 20;
    if (answer == 0)
        answer = check_printing(record, layout != 0);
    if (answer != 0)
        return answer;
    memset(room, ' ', FRONT_SIZE);
    put_name(record, layout != 0 ? room : room + LINE_SIZE);
    if (layout != 0)
        put_value(room + 2 * LINE_SIZE, 0, slot_of_row(record, ROW_80));
    put_line_four(record, room + 3 * LINE_SIZE);
    return 0;
}
