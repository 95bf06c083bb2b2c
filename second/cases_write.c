/* Written from document 01 alone, without a look at the library. */
#include <string.h>

#include "cases.h"
#include "chance.h"

#define COUNT(list) (sizeof(list) / sizeof((list)[0]))

static void buffers(void)
{
    static const size_t lengths[] = {0, 1, 255, 256, 257, 512, 600};
    struct edition bad = wide;
    uint8_t record[RECORD_SIZE];
    uint8_t empty[RECORD_SIZE] = {0};
    size_t i;

    bad.table[ROW_SIZE] = 2;
    record_s(record);
    set_text(record, ROW_83, "3999");
    for (i = 0; i < COUNT(lengths); i++) {
        emit_write(&terminal, record, lengths[i]);
        emit_write(&issue, record, lengths[i]);
        emit_write(&bad, record, lengths[i]);
        emit_write(&terminal, empty, lengths[i]);
    }
}

static void address_0_and_last(void)
{
    static const uint8_t first[] = {0x82, 0x92, 0xA2, 0x00, 0x83, 0xFF};
    static const uint8_t last[] = {0x00, 0xFF, 0x01, 0x55};
    uint8_t record[RECORD_SIZE];
    size_t i, k;

    record_full(record);
    for (i = 0; i < COUNT(first); i++) {
        for (k = 0; k < COUNT(last); k++) {
            record[0] = first[i];
            record[RECORD_LAST] = last[k];
            emit_record(turn(k), record);
        }
    }
}

static void free_bytes(void)
{
    uint8_t record[RECORD_SIZE];
    size_t i;

    record_full(record);
    for (i = RECORD_FREE; i < RECORD_LAST; i++)
        record[i] = (uint8_t)(0xF0 + i);
    emit_record(&terminal, record);
    for (i = RECORD_FREE; i < RECORD_LAST; i++)
        record[i] = (uint8_t)chance(256);
    emit_record(&issue, record);
}

static void absent_objects(void)
{
    uint8_t record[RECORD_SIZE];
    size_t row;

    for (row = 0; row < OBJECT_COUNT; row++) {
        record_full(record);
        set_absent(record, row);
        emit_record(&terminal, record);
        emit_record(&issue, record);
        set_absent(record, chance(OBJECT_COUNT));
        emit_record(turn(row), record);
    }
}

static void emit_length(const struct edition *edition, size_t row, size_t length)
{
    uint8_t record[RECORD_SIZE];

    record_around(record, row);
    chance_fill(record, edition->table, row, length);
    emit_record(edition, record);
}

static void every_length(void)
{
    static const uint8_t terminal_rows[] = {ROW_81, ROW_85, ROW_86, ROW_8B};
    static const uint8_t issue_rows[] = {ROW_83, ROW_8C};
    size_t i, length;

    for (length = 0; length <= 30; length++) {
        for (i = 0; i < COUNT(terminal_rows); i++)
            emit_length(&terminal, terminal_rows[i], length);
        for (i = 0; i < COUNT(issue_rows); i++)
            emit_length(&issue, issue_rows[i], length);
    }
}

/* Both sides of both ends of each set. */
static void ends_of_lengths(void)
{
    size_t row;

    for (row = 0; row < OBJECT_COUNT; row++) {
        const struct edition *edition = turn(row + 1);
        uint32_t lengths = row_of_table(edition->table, row).lengths;
        size_t shortest = 1, longest = 28;
        while ((lengths >> shortest & 1) == 0)
            shortest++;
        while ((lengths >> longest & 1) == 0)
            longest--;
        if (shortest > 1)
            emit_length(edition, row, shortest - 1);
        emit_length(edition, row, shortest);
        emit_length(edition, row, longest);
        emit_length(edition, row, longest + 1);
    }
}

static void claimed_lengths(void)
{
    static const uint8_t claims[] = {29, 30, 31, 32, 33, 60, 64, 96, 127, 128, 129, 160, 254, 255};
    uint8_t record[RECORD_SIZE];
    size_t i, row;

    for (i = 0; i < COUNT(claims); i++) {
        row = (i * 3 + chance(3)) % OBJECT_COUNT;
        record_full(record);
        slot_of(record, row)[0] = claims[i];
        emit_record(&terminal, record);
        memset(slot_of(record, row) + 1, 0xFF, VALUE_MAX);
        emit_record(turn(i), record);
    }
}

/* What lies behind a value, or in the slot of an absent object, is not content. */
static void junk_behind(void)
{
    static const uint8_t junk[] = {0x01, 0x20, 0x30, 0x41, 0xFF};
    uint8_t record[RECORD_SIZE];
    size_t i, row;

    for (i = 0; i < 10; i++) {
        if (!chance_record(record, turn(i)->table))
            continue;
        for (row = 0; row < OBJECT_COUNT; row++) {
            uint8_t *slot = slot_of(record, row);
            if (i < 5 || chance(2))
                memset(slot + 1 + slot[0], junk[i % 5], (size_t)VALUE_MAX - slot[0]);
        }
        emit_record(turn(i), record);
    }
}

static int is_near_an_edge(unsigned byte)
{
    static const uint8_t near[] = {
        0x00, 0x1F, 0x20, 0x21, 0x25, 0x2A, 0x2C, 0x2F, 0x30, 0x39, 0x3A, 0x40, 0x41, 0x5A, 0x5D, 0x5E, 0x5F, 0x60,
        0x61, 0x7A, 0x7E, 0x7F, 0x80, 0xC4, 0xFF
    };

    return memchr(near, (int)byte, sizeof near) != NULL;
}

static void emit_byte(const struct edition *edition, size_t row, size_t index, unsigned byte)
{
    uint8_t record[RECORD_SIZE];

    record_full(record);
    slot_of(record, row)[1 + index] = (uint8_t)byte;
    emit_record(edition, record);
}

static void every_byte(void)
{
    unsigned byte;

    for (byte = 0; byte < 256; byte++) {
        emit_byte(turn(byte), ROW_81, byte % 7, byte);
        emit_byte(&issue, ROW_90, 0, byte);
        emit_byte(&issue, ROW_8A, 0, byte);
        if (!is_near_an_edge(byte))
            continue;
        emit_byte(turn(byte), ROW_89, byte % 12, byte);
        emit_byte(&issue, ROW_83, byte % 4, byte);
        emit_byte(turn(byte), byte % 3 == 0 ? ROW_88 : ROW_8D, byte % 4, byte);
    }
}

/* Two wrong bytes in one value: the index of the first is told. */
static void first_wrong_byte(void)
{
    uint8_t record[RECORD_SIZE];
    size_t row;

    for (row = 0; row < OBJECT_COUNT; row++) {
        uint8_t *slot = slot_of(record, row);
        record_full(record);
        slot[slot[0]] = 0x3A;
        slot[1 + chance(slot[0])] = 0xE4;
        emit_record(turn(row), record);
    }
}

/* Changes that a later or an earlier check would find too. */
static void order_of_rows(void)
{
    uint8_t record[RECORD_SIZE];
    size_t row;

    for (row = 0; row + 1 < OBJECT_COUNT; row++) {
        record_full(record);
        slot_of(record, row)[1] = 0x40;
        set_absent(record, row + 1);
        emit_record(&issue, record);
        record_full(record);
        set_absent(record, row);
        slot_of(record, row + 1)[0] = 29;
        emit_record(turn(row), record);
    }
    record_full(record);
    record[RECORD_LAST] = 0xFF;
    set_absent(record, ROW_80);
    emit_record(&terminal, record);
    record[0] = 0x82;
    emit_record(&terminal, record);
}

static void order_at_the_end(void)
{
    uint8_t record[RECORD_SIZE];

    record_full(record);
    set_text(record, ROW_85, "A name of twenty-four ch");
    set_text(record, ROW_8C, "A town of twenty-two c");
    emit_both(&terminal, record);
    emit_both(&issue, record);
    set_text(record, ROW_8D, "1325");
    emit_both(&terminal, record);
    record_full(record);
    set_text(record, ROW_80, "Twenty-eight bytes of a fund");
    set_text(record, ROW_82, "123456789012");
    set_text(record, ROW_87, "Twenty-eight bytes of a name");
    set_text(record, ROW_89, "Twenty-eight bytes of street");
    set_text(record, ROW_90, "M10");
    set_text(record, ROW_84, "Fifteen bytes..");
    set_text(record, ROW_86, "Fifteen bytes..");
    set_text(record, ROW_8C, "Twenty-three bytes.....");
    emit_both(&terminal, record);
    set_text(record, ROW_84, "Dr");
    set_text(record, ROW_86, "v");
    emit_both(&terminal, record);
}

/* A sum too large in a template too short: reading tells 4, writing 11. */
static void short_but_too_large(void)
{
    static const uint8_t rows[] = {ROW_84, ROW_86, ROW_8B};
    uint8_t record[RECORD_SIZE];
    size_t i;

    for (i = 0; i < COUNT(rows); i++) {
        memset(record, 0, RECORD_SIZE);
        record[0] = 0x92;
        chance_fill(record, wide.table, rows[i], 28);
        emit_both(&wide, record);
        chance_fill(record, wide.table, ROW_8C, 3);
        emit_both(&wide, record);
    }
}

static void mutations(void)
{
    uint8_t record[RECORD_SIZE];
    size_t i, row;

    for (i = 0; i < 80; i++) {
        uint8_t *slot, byte;
        if (!chance_record(record, turn(i)->table))
            continue;
        row = chance(OBJECT_COUNT);
        slot = slot_of(record, row);
        if (chance(3) == 0) {
            slot[0] = (uint8_t)(slot[0] + (chance(2) ? 1 : 255));
        } else {
            byte = (uint8_t)(0x20 + chance(0x60));
            slot[1 + chance(slot[0] != 0 && slot[0] < VALUE_MAX ? slot[0] : 1)] = byte;
        }
        emit_record(i % 6 == 0 ? turn(i + 1) : turn(i), record);
    }
}

void writing_cases(void)
{
    buffers();
    address_0_and_last();
    free_bytes();
    absent_objects();
    every_length();
    ends_of_lengths();
    claimed_lengths();
    junk_behind();
    every_byte();
    first_wrong_byte();
    order_of_rows();
    order_at_the_end();
    short_but_too_large();
    mutations();
}
