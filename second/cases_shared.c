/* Cases that are read and written alike.
   Written from document 01 alone, without a look at the library. */
#include <string.h>

#include "cases.h"
#include "chance.h"

#define COUNT(list) (sizeof(list) / sizeof((list)[0]))

static void card_s(void)
{
    uint8_t record[RECORD_SIZE];

    record_s(record);
    emit_both(&terminal, record);
    emit_both(&issue, record);
    set_text(record, ROW_83, "1000");
    emit_both(&terminal, record);
    emit_both(&issue, record);
    record[0] = 0x82;
    record[RECORD_LAST] = 0xFF;
    emit_both(&terminal, record);
    emit_both(&issue, record);
    record[0] = 0xA2;
    emit_both(&terminal, record);
    record_full(record);
    emit_both(&terminal, record);
    emit_both(&issue, record);
    set_absent(record, ROW_8A);
    set_text(record, ROW_8B, "1234");
    set_text(record, ROW_8C, "A town of twenty-three.");
    emit_both(&terminal, record);
    emit_both(&issue, record);
}

static void template_lengths(void)
{
    static const uint8_t lengths[] = {
        68, 69, 70, 71, 72, 73, 91, 92, 93, 94, 95, 126, 127, 128, 129, 130, 210, 211, 212, 213, 214
    };
    uint8_t record[RECORD_SIZE];
    size_t i;

    for (i = 0; i < COUNT(lengths); i++) {
        if (chance_record_of(record, terminal.table, lengths[i]))
            emit_both(&terminal, record);
        if (chance_record_of(record, issue.table, lengths[i]))
            emit_both(&issue, record);
        if (chance_record_of(record, wide.table, lengths[i]))
            emit_both(&wide, record);
    }
    if (chance_record_of(record, terminal.table, 51))
        emit_both(&terminal, record);
    memset(record + RECORD_SLOTS, 0, RECORD_SIZE - RECORD_SLOTS);
    emit_both(&wide, record);
}

static void set_group(uint8_t *record, const uint8_t *table, size_t first, const uint8_t *lengths)
{
    size_t i;

    for (i = 0; i < 3; i++)
        chance_fill(record, table, first + i, lengths[i]);
}

static void sums_of_names(void)
{
    static const uint8_t lengths[][3] = {
        {15, 0, 0}, {0, 28, 0}, {0, 0, 15}, {16, 0, 0}, {28, 0, 0}, {0, 0, 16}, {0, 0, 28},
        {15, 12, 0}, {15, 13, 0}, {2, 25, 0}, {2, 26, 0}, {0, 26, 1}, {0, 27, 1}, {0, 12, 15}, {0, 13, 15},
        {12, 0, 15}, {13, 0, 15}, {15, 0, 12}, {15, 0, 13}, {15, 0, 15},
        {2, 23, 1}, {2, 24, 1}, {15, 10, 1}, {15, 10, 2}, {10, 1, 15}, {11, 1, 15}, {15, 28, 15}
    };
    uint8_t record[RECORD_SIZE];
    size_t i;

    for (i = 0; i < COUNT(lengths); i++) {
        record_full(record);
        set_group(record, wide.table, ROW_84, lengths[i]);
        emit_both(turn(lengths[i][1] != 0 ? i : 0), record);
        if (i % 3 == 0 || i < 7)
            emit_both(&wide, record);
    }
}

static void sums_of_addresses(void)
{
    static const uint8_t lengths[][3] = {
        {0, 4, 22}, {0, 4, 23}, {0, 5, 22}, {0, 5, 23}, {0, 6, 22}, {0, 7, 20}, {0, 7, 21},
        {1, 4, 21}, {1, 4, 22}, {1, 7, 18}, {1, 7, 19}, {3, 4, 19}, {3, 4, 20}, {3, 7, 16}, {3, 7, 17}, {3, 7, 23}
    };
    uint8_t record[RECORD_SIZE];
    size_t i;

    for (i = 0; i < COUNT(lengths); i++) {
        record_full(record);
        set_group(record, wide.table, ROW_8A, lengths[i]);
        emit_both(&terminal, record);
        if (i % 2 == 0)
            emit_both(&issue, record);
    }
}

/* Lengths of at least 1 for the objects of the subset, with this sum. */
static void spread(unsigned subset, size_t sum, uint8_t *lengths)
{
    size_t i;

    for (i = 0; i < 3; i++) {
        lengths[i] = (uint8_t)(subset >> i & 1);
        sum -= lengths[i];
    }
    while (sum > 0 && subset != 0) {
        i = chance(3);
        if ((subset >> i & 1) != 0 && lengths[i] < VALUE_MAX) {
            lengths[i]++;
            sum--;
        }
    }
}

/* 0 where the subset has no limit that a length up to 28 can pass. */
static size_t limit_of(unsigned subset, int names)
{
    switch (subset) {
    case 0:
        return 0;
    case 1:
    case 4:
        return names ? 15 : 28;
    case 2:
        return 28;
    case 7:
        return 26;
    default:
        return 27;
    }
}

static void emit_sums(unsigned names, unsigned address, unsigned past)
{
    size_t names_sum = limit_of(names, 1) + (past & 1);
    size_t address_sum = limit_of(address, 0) + (past >> 1);
    uint8_t record[RECORD_SIZE];
    uint8_t lengths[3];

    if (names_sum == 1 || address_sum == 1 || names_sum > (names == 2 ? 28 : 29)
        || (address_sum == 29))
        return;
    record_full(record);
    spread(names, names_sum, lengths);
    set_group(record, wide.table, ROW_84, lengths);
    spread(address, address_sum, lengths);
    set_group(record, wide.table, ROW_8A, lengths);
    if ((names + address + past) % 2 == 0)
        emit_card(&wide, record);
    else
        emit_record(&wide, record);
}

/* Every choice of objects in both groups, each group at its limit or one past it. */
static void grid_of_sums(void)
{
    unsigned names, address, past;

    for (names = 0; names < 8; names++) {
        for (address = 0; address < 8; address++) {
            for (past = 0; past < 4; past++)
                emit_sums(names, address, past);
        }
    }
}

static void births(void)
{
    static const char *const values[] = {
        "00000000", "00001950", "00051950", "00121950", "00130000", "01001950", "05001950", "31000000", "32000000",
        "01011950", "31011950", "32011950", "39011950", "40011950", "99011950", "30021999", "31022000", "31041900",
        "31120000", "31129999", "01121950", "01131950", "01191950", "01201950", "01991950", "00991950", "32131950",
        "29022023", "10102010", "0101195A", "A1011950", "32A31950", "0113 950", "9913195/", "010119:0"
    };
    uint8_t record[RECORD_SIZE];
    size_t i;

    record_full(record);
    for (i = 0; i < COUNT(values); i++) {
        set_text(record, ROW_88, values[i]);
        emit_card(turn(i), record);
        emit_record(turn(i + 1), record);
    }
}

static void expiries(void)
{
    static const char *const values[] = {
        "0000", "0100", "0199", "0012", "0112", "0925", "1025", "1225", "1325", "1925", "2025", "9999", "12 5", "1A25",
        "/125", "00:0", "13x9"
    };
    uint8_t record[RECORD_SIZE];
    size_t i;

    record_full(record);
    for (i = 0; i < COUNT(values); i++) {
        set_text(record, ROW_8D, values[i]);
        emit_card(turn(i + 1), record);
        emit_record(turn(i), record);
    }
}

/* Status and status addition, with the first byte and a later one wrong in turn. */
static void leads_and_codes(void)
{
    static const char *const status[] = {
        "0", "9", "10", "100", "1000", "3000", "5000", "5999", "0000", "2000", "4000", "6111", "9999", "2A00", "A000",
        "100A", "1 00", "300/", "0300"
    };
    static const char *const additions[] = {"1", "D", "Z", "z", "2", "m", "M1", "M10", "A!", "Z10", "-", "@", "1000"};
    uint8_t record[RECORD_SIZE];
    size_t i;

    record_full(record);
    for (i = 0; i < COUNT(status); i++) {
        set_text(record, ROW_83, status[i]);
        emit_card(turn(i), record);
        emit_record(turn(i + 1), record);
    }
    record_full(record);
    for (i = 0; i < COUNT(additions); i++) {
        set_text(record, ROW_90, additions[i]);
        emit_card(&terminal, record);
        emit_record(&issue, record);
    }
}

/* The single D, and what looks like it. */
static void countries(void)
{
    static const char *const values[] = {
        "D", "d", "DE", "D ", " D", "DD", "DDD", "A", "C", "E", "F", "1", "_", "@", "D@", "@D", "DEUT"
    };
    uint8_t record[RECORD_SIZE];
    size_t i;

    record_full(record);
    for (i = 0; i < COUNT(values); i++) {
        set_text(record, ROW_8A, values[i]);
        emit_both(&terminal, record);
        emit_both(&issue, record);
    }
}

/* The D, and something earlier or later wrong too. */
static void order_of_d(void)
{
    uint8_t record[RECORD_SIZE];
    size_t i;

    for (i = 0; i < 6; i++) {
        record_full(record);
        set_text(record, ROW_8A, "D");
        if (i == 0)
            set_text(record, ROW_89, "No street_@");
        if (i == 1)
            set_text(record, ROW_8B, "123456789");
        if (i == 2)
            set_text(record, ROW_8C, "A town of twenty-two c");
        if (i == 3)
            set_text(record, ROW_85, "A name of twenty-four ch");
        if (i == 4)
            set_absent(record, ROW_8D);
        emit_both(turn(0), record);
        emit_both(turn(1), record);
    }
}

static void valid_cards(void)
{
    uint8_t record[RECORD_SIZE];
    size_t i;

    for (i = 0; i < 20; i++) {
        if (!chance_record(record, turn(i)->table))
            continue;
        emit_card(turn(i), record);
        emit_card(turn(i + 1), record);
        emit_record(turn(i + i / 2), record);
    }
}

/* Each template length, and some beyond both ends. */
void template_cases(void)
{
    uint8_t record[RECORD_SIZE];
    size_t length;

    for (length = 60; length < 224; length++) {
        const struct edition *edition = length < 70 || length > 212 ? &wide : length < 74 ? &terminal : turn(length);
        if (chance_record_of(record, edition->table, length))
            emit_both(edition, record);
    }
}

void shared_cases(void)
{
    card_s();
    template_lengths();
    sums_of_names();
    sums_of_addresses();
    grid_of_sums();
    births();
    expiries();
    leads_and_codes();
    countries();
    order_of_d();
    valid_cards();
}
