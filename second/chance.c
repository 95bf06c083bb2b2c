/* Written from document 01 alone, without a look at the library. */
#include "chance.h"

#include <string.h>

#include "draft.h"

static uint64_t state = 1;

void chance_seed(uint64_t seed)
{
    size_t i;

    state = (seed + 1) * UINT64_C(0x9E3779B97F4A7C15);
    if (state == 0)
        state = 1;
    for (i = 0; i < 16; i++)
        chance(2);
}

/* xorshift64* */
size_t chance(size_t count)
{
    state ^= state >> 12;
    state ^= state << 25;
    state ^= state >> 27;
    return (size_t)((state * UINT64_C(0x2545F4914F6CDD1D) >> 32) % count);
}

struct rule_row row_of_table(const uint8_t *table, size_t row)
{
    const uint8_t *bytes = table + row * ROW_SIZE;
    struct rule_row rule_row;

    rule_row.required = bytes[0];
    rule_row.rule = bytes[1];
    rule_row.lengths = (uint32_t)bytes[2] << 24 | (uint32_t)bytes[3] << 16
                     | (uint32_t)bytes[4] << 8 | bytes[5];
    return rule_row;
}

void row_to_table(uint8_t *table, size_t row, struct rule_row rule_row)
{
    uint8_t *bytes = table + row * ROW_SIZE;

    bytes[0] = rule_row.required;
    bytes[1] = rule_row.rule;
    bytes[2] = (uint8_t)(rule_row.lengths >> 24);
    bytes[3] = (uint8_t)(rule_row.lengths >> 16);
    bytes[4] = (uint8_t)(rule_row.lengths >> 8);
    bytes[5] = (uint8_t)rule_row.lengths;
}

static uint8_t one_of(const char *characters)
{
    return (uint8_t)characters[chance(strlen(characters))];
}

static void two_digits(uint8_t *value, size_t number)
{
    value[0] = (uint8_t)(0x30 + number / 10);
    value[1] = (uint8_t)(0x30 + number % 10);
}

void chance_value(unsigned rule, uint8_t *value, size_t length)
{
    const char *digits = "0123456789";
    const char *text = "0123456789ABCDEFGHIJKLMNOPQRSTUVWXYZabcdefghijklmnopqrstuvwxyz"
                       "[\\]{|}~ &'()+-./_";
    int is_text = rule == RULE_TEXT || rule == RULE_CODE || rule == RULE_NOT_D;
    size_t month = chance(13);
    size_t i;

    for (i = 0; i < length; i++)
        value[i] = one_of(is_text ? text : digits);
    if (rule == RULE_LEAD)
        value[0] = one_of("135");
    if (rule == RULE_CODE)
        value[0] = one_of("194678MXACKLENDFSP");
    if (rule == RULE_NOT_D && length == 1 && value[0] == 'D')
        value[0] = one_of("CEd");
    if (rule == RULE_BIRTH && length >= 4) {
        two_digits(value, month == 0 ? 0 : chance(32));
        two_digits(value + 2, month);
    }
    if (rule == RULE_EXPIRY && length >= 2)
        two_digits(value, 1 + chance(12));
}

void chance_fill(uint8_t *record, const uint8_t *table, size_t row, size_t length)
{
    uint8_t *slot = slot_of(record, row);

    memset(slot, 0, SLOT_SIZE);
    slot[0] = (uint8_t)length;
    if (length != 0)
        chance_value(row_of_table(table, row).rule, slot + 1, length < 28 ? length : 28);
}

static size_t next_length(uint32_t lengths, size_t after)
{
    size_t length = after + 1;

    while (length <= 28 && (lengths >> length & 1) == 0)
        length++;
    return length;
}

static int group_fits(const size_t *lengths, size_t alone)
{
    size_t sum = lengths[0] + lengths[1] + lengths[2];
    size_t present = (lengths[0] != 0) + (size_t)(lengths[1] != 0) + (lengths[2] != 0);

    if (present == 1)
        return sum <= alone;
    return sum <= (present == 2 ? 27u : 26u);
}

static int sums_fit(const size_t *lengths)
{
    int middle_alone = lengths[ROW_84] == 0 && lengths[ROW_86] == 0;

    return group_fits(lengths + ROW_84, middle_alone ? 28 : 15) && group_fits(lengths + ROW_8A, 28);
}

static size_t total_of(const size_t *lengths)
{
    size_t total = 3;
    size_t row;

    for (row = 0; row < OBJECT_COUNT; row++)
        total += lengths[row] != 0 ? lengths[row] + 2 : 0;
    return total;
}

/* Starts from the shortest lengths of a random choice of objects and grows one object after
   another as far as the sums allow, until the wanted length is met. */
static int try_lengths(size_t *lengths, const uint8_t *table, size_t wanted)
{
    size_t keep = wanted > 190 ? 100 : chance(101);
    size_t row, step;

    for (row = 0; row < OBJECT_COUNT; row++) {
        struct rule_row rule_row = row_of_table(table, row);
        int present = rule_row.required || chance(100) < keep;
        lengths[row] = present ? next_length(rule_row.lengths, 0) : 0;
    }
    for (step = 0; step < 600 && total_of(lengths) < wanted; step++) {
        size_t before;
        row = chance(OBJECT_COUNT);
        before = lengths[row];
        if (before == 0)
            continue;
        lengths[row] = next_length(row_of_table(table, row).lengths, before);
        if (lengths[row] > 28 || !sums_fit(lengths) || total_of(lengths) > wanted)
            lengths[row] = before;
    }
    return total_of(lengths) == wanted && sums_fit(lengths);
}

static void random_ends(uint8_t *record)
{
    static const uint8_t first[3] = {0x82, 0x92, 0xA2};
    size_t i;

    record[0] = first[chance(3)];
    for (i = RECORD_FREE; i < RECORD_LAST; i++)
        record[i] = (uint8_t)chance(256);
    record[RECORD_LAST] = record[0] == 0x82 && chance(2) ? 0xFF : 0x00;
}

int chance_record_of(uint8_t *record, const uint8_t *table, size_t wanted)
{
    size_t lengths[OBJECT_COUNT];
    size_t attempt, row;

    for (attempt = 0; attempt < 400; attempt++) {
        if (!try_lengths(lengths, table, wanted))
            continue;
        memset(record, 0, RECORD_SIZE);
        random_ends(record);
        put_number(record, table);
        for (row = 0; row < OBJECT_COUNT; row++)
            chance_fill(record, table, row, lengths[row]);
        return 1;
    }
    return 0;
}

int chance_record(uint8_t *record, const uint8_t *table)
{
    size_t attempt;

    for (attempt = 0; attempt < 60; attempt++) {
        if (chance_record_of(record, table, 70 + chance(143)))
            return 1;
    }
    return 0;
}

static uint32_t random_lengths(void)
{
    uint32_t all = UINT32_C(0x1FFFFFFE);
    size_t from = 1 + chance(12);
    size_t to = from + chance(4);
    uint32_t set = 0;

    switch (chance(4)) {
    case 0:
        return UINT32_C(1) << (1 + chance(8));
    case 1:
        for (; from <= to; from++)
            set |= UINT32_C(1) << from;
        return set;
    case 2:
        return all & ~((UINT32_C(1) << from) - 1);
    default:
        set = (uint32_t)chance(UINT32_C(0x80000000)) & all;
        return set | UINT32_C(1) << from;
    }
}

void chance_table(uint8_t *table)
{
    static const struct rule_row checksum = {1, RULE_RAW, 2};
    static const uint8_t rules[] = {
        RULE_DIGITS, RULE_TEXT, RULE_LEAD, RULE_CODE, RULE_BIRTH, RULE_EXPIRY, RULE_NOT_D
    };
    size_t row;

    for (row = 0; row < OBJECT_COUNT; row++) {
        struct rule_row rule_row;
        rule_row.required = (uint8_t)chance(2);
        rule_row.rule = rules[chance(sizeof rules)];
        rule_row.lengths = random_lengths();
        if (rule_row.rule == RULE_BIRTH)
            rule_row.lengths = UINT32_C(1) << 8;
        if (rule_row.rule == RULE_EXPIRY)
            rule_row.lengths = UINT32_C(1) << 4;
        row_to_table(table, row, rule_row);
    }
    row_to_table(table, ROW_8E, checksum);
    table[TABLE_NUMBER] = (uint8_t)(1 + chance(chance(2) ? 3 : 255));
}
