#include "material.h"

#include <string.h>

#include "chance.h"

#define COUNT(list) (sizeof(list) / sizeof((list)[0]))

void random_bytes(uint8_t *bytes, size_t count)
{
    while (count > 0)
        bytes[--count] = (uint8_t)chance(256);
}

static uint8_t telling_byte(void)
{
    static const uint8_t bytes[] = {0x00, 0x20, 0x2F, 0x30, 0x39, 0x3A, 0x40, 0x46, 0x5E, 0x60, 0x7F, 0x80,
                                    0x81, 0x82, 0x8E, 0x8F, 0x90, 0x91, 0x92, 0xA2, 0xC0, 0xFF};

    return chance(2) ? (uint8_t)chance(256) : bytes[chance(COUNT(bytes))];
}

/* The address is drawn before the byte, with every compiler. */
static void put_telling_byte(uint8_t *address)
{
    *address = telling_byte();
}

/* Stock */

static size_t permitted_length(const uint8_t *table, size_t row)
{
    uint32_t lengths = row_of_table(table, row).lengths;
    size_t length;

    do
        length = 1 + chance(VALUE_MAX);
    while ((lengths >> length & 1) == 0);
    return length;
}

static void random_record(uint8_t *record, const uint8_t *table)
{
    static const uint8_t first[] = {0x82, 0x92, 0xA2};
    size_t keep = chance(101);
    size_t row;

    record[0] = first[chance(COUNT(first))];
    random_bytes(record + RECORD_FREE, FREE_COUNT);
    record[RECORD_LAST] = record[0] == 0x82 && chance(2) ? 0xFF : 0x00;
    for (row = 0; row < OBJECT_COUNT; row++) {
        int present = row_of_table(table, row).required || chance(100) < keep;
        chance_fill(record, table, row, present ? permitted_length(table, row) : 0);
    }
    put_number(record, table);
}

static int is_written(const uint8_t *record, const uint8_t *table)
{
    uint8_t image[IMAGE_SIZE];

    return second_write(table, TABLE_SIZE, record, RECORD_SIZE, image, IMAGE_SIZE) == 0;
}

static void put_up(struct stock *stock, const uint8_t *table, const uint8_t *record)
{
    memcpy(stock->table, table, TABLE_SIZE);
    memcpy(stock->record, record, RECORD_SIZE);
    draft_card(&stock->draft, record);
}

int stock_up(struct stock *stock, const uint8_t *table)
{
    uint8_t record[RECORD_SIZE];
    size_t attempt;

    for (attempt = 0; attempt < 40; attempt++) {
        random_record(record, table);
        if (is_written(record, table)) {
            put_up(stock, table, record);
            return 1;
        }
    }
    return 0;
}

int stock_up_at(struct stock *stock, const uint8_t *table, size_t template_length)
{
    uint8_t record[RECORD_SIZE];

    if (!chance_record_of(record, table, template_length))
        return 0;
    put_up(stock, table, record);
    return 1;
}

/* Tables */

void damage_table(uint8_t *table)
{
    size_t row = chance(ROW_COUNT);
    size_t other = chance(ROW_COUNT);
    struct rule_row rule_row = row_of_table(table, row);

    switch (chance(9)) {
    case 0:
        rule_row.required = (uint8_t)chance(chance(2) ? 3 : 256);
        break;
    case 1:
        rule_row.rule = (uint8_t)chance(chance(4) ? 9 : 256);
        break;
    case 2:
        rule_row.lengths ^= UINT32_C(1) << chance(32);
        break;
    case 3:
        rule_row.lengths = UINT32_C(1) << chance(32);
        break;
    case 4:
        rule_row.lengths = 0;
        break;
    case 5:
        row_to_table(table, row, row_of_table(table, other));
        row = other;
        break;
    case 6:
        random_bytes(table + chance(TABLE_SIZE), 1);
        return;
    case 7:
        table[TABLE_NUMBER] = (uint8_t)chance(3);
        return;
    default:
        random_bytes(table + row * ROW_SIZE, ROW_SIZE);
        return;
    }
    row_to_table(table, row, rule_row);
}

/* Records */

static size_t other_length(size_t length)
{
    switch (chance(4)) {
    case 0:
        return length + 1;
    case 1:
        return length - (length > 0);
    case 2:
        return chance(VALUE_MAX + 2);
    default:
        return chance(256);
    }
}

/* Digits or text, whatever the rule. */
static void put_simpler_value(uint8_t *slot)
{
    size_t length = slot[0] < VALUE_MAX ? slot[0] : VALUE_MAX;

    if (length > 0)
        chance_value(chance(4) ? RULE_DIGITS : RULE_TEXT, slot + 1, length);
}

/* The first four digits of a date, a birth's or an expiry's, about the edges of days and months. */
static void put_edge_date(uint8_t *slot)
{
    static const char *const numbers[] = {"00", "01", "09", "10", "12", "13", "30", "31", "32"};

    memcpy(slot + 1, numbers[chance(COUNT(numbers))], 2);
    memcpy(slot + 3, numbers[chance(COUNT(numbers))], 2);
}

/* One to three objects of the group, together at an edge of the sums or one beside it. */
static void put_edge_sum(uint8_t *record, const uint8_t *table, size_t first)
{
    static const uint8_t sums[] = {15, 16, 26, 27, 28};
    size_t last = first + chance(3);
    size_t wanted = sums[chance(COUNT(sums))];
    size_t row;

    for (row = first; row < first + 3; row++) {
        size_t length = chance(2) && row != last ? permitted_length(table, row) : 0;
        chance_fill(record, table, row, length);
        wanted -= length < wanted ? length : 0;
    }
    chance_fill(record, table, last, wanted);
}

/* The single D or a value beside it. */
static void put_d(uint8_t *slot)
{
    static const char *const values[] = {"D", "D", "D", "d", "E", "DE", "D "};
    const char *value = values[chance(COUNT(values))];

    slot[0] = (uint8_t)strlen(value);
    memcpy(slot + 1, value, slot[0]);
}

void damage_record(uint8_t *record, const uint8_t *table)
{
    size_t row = chance(OBJECT_COUNT);
    uint8_t *slot = slot_of(record, row);

    switch (chance(14)) {
    case 0:
        slot[0] = (uint8_t)other_length(slot[0]);
        break;
    case 1:
        chance_fill(record, table, row, other_length(slot[0]) & 0xFF);
        break;
    case 2:
        set_absent(record, row);
        break;
    case 3:
    case 4:
        chance_fill(record, table, row, 1 + chance(VALUE_MAX));
        break;
    case 5:
        put_telling_byte(&slot[1 + chance(slot[0] != 0 && slot[0] < VALUE_MAX ? slot[0] : VALUE_MAX)]);
        break;
    case 6:
    case 7:
        put_simpler_value(slot_of(record, chance(2) ? row : (size_t)(chance(2) ? ROW_88 : ROW_8D)));
        break;
    case 8:
        put_telling_byte(&record[chance(2) ? 0 : RECORD_LAST]);
        break;
    case 9:
        put_edge_sum(record, table, chance(2) ? ROW_84 : ROW_8A);
        break;
    case 10:
        put_edge_date(slot_of(record, chance(2) ? ROW_88 : ROW_8D));
        break;
    case 12:
        record[RECORD_NUMBER] = (uint8_t)chance(chance(2) ? 3 : 256);
        break;
    case 11:
        put_d(chance(2) ? slot : slot_of(record, ROW_8A));
        break;
    default:
        if (slot[0] < VALUE_MAX)
            random_bytes(slot + 1 + slot[0], VALUE_MAX - (size_t)slot[0]);
    }
}

void vary_record(uint8_t *record, const uint8_t *table)
{
    size_t row = chance(OBJECT_COUNT);
    uint8_t *slot = slot_of(record, row);

    switch (chance(6)) {
    case 0:
        random_bytes(record + RECORD_FREE + chance(FREE_COUNT), 1);
        break;
    case 1:
        record[0] = 0x82;
        record[RECORD_LAST] ^= 0xFF;
        break;
    case 2:
        if (row_of_table(table, row).required == 0)
            set_absent(record, row);
        break;
    case 3:
        chance_fill(record, table, row, permitted_length(table, row));
        break;
    default:
        if (slot[0] != 0)
            chance_fill(record, table, row, slot[0]);
    }
}

/* Cards */

static size_t any_tag_address(const struct stock *stock)
{
    const struct draft *draft = &stock->draft;
    size_t row = chance(ROW_COUNT);

    return draft->tag_at[row] < IMAGE_SIZE - 1 ? draft->tag_at[row] : 32;
}

static size_t from_on(size_t address)
{
    return address < IMAGE_SIZE ? address + chance(IMAGE_SIZE - address) : IMAGE_SIZE - 1;
}

static void change_head(struct stock *stock)
{
    put_telling_byte(&stock->draft.image[chance(33)]);
}

static void change_length(struct stock *stock)
{
    uint8_t *length = stock->draft.image + any_tag_address(stock) + 1;

    *length = (uint8_t)other_length(*length);
}

static void change_tag(struct stock *stock)
{
    uint8_t *tag = stock->draft.image + any_tag_address(stock);

    *tag = (uint8_t)(0x7F + chance(20));
}

static void change_template_length(struct stock *stock)
{
    uint8_t *length = stock->draft.image + 31 + chance(2);
    unsigned step = chance(2) ? 1 : 255;

    *length = (uint8_t)(*length + step * (1 + chance(3)));
}

static void change_template(struct stock *stock)
{
    put_telling_byte(&stock->draft.image[30 + chance(stock->draft.end < IMAGE_SIZE ? stock->draft.end - 30 : 226)]);
}

static void change_tail(struct stock *stock)
{
    put_telling_byte(&stock->draft.image[chance(2) ? from_on(stock->draft.end) : 253 + chance(3)]);
}

static void change_tail_begin(struct stock *stock)
{
    size_t address = stock->draft.end + chance(4);

    put_telling_byte(&stock->draft.image[address < IMAGE_SIZE ? address : 255]);
}

static void change_checksum(struct stock *stock)
{
    size_t address = stock->draft.checksum_at;

    stock->draft.image[address < IMAGE_SIZE ? address : 101] ^= (uint8_t)(1 + chance(255));
}

static void flip_bit(struct stock *stock)
{
    size_t address = chance(IMAGE_SIZE);

    stock->draft.image[address] ^= (uint8_t)(1u << chance(8));
}

static void cut_in_two(struct stock *stock)
{
    size_t address = chance(IMAGE_SIZE);

    random_bytes(stock->draft.image + address, IMAGE_SIZE - address);
}

static void shift_up(struct stock *stock)
{
    uint8_t *image = stock->draft.image;
    size_t address = 30 + chance(200);

    memmove(image + address + 1, image + address, IMAGE_SIZE - address - 1);
}

static void shift_down(struct stock *stock)
{
    uint8_t *image = stock->draft.image;
    size_t address = 30 + chance(200);

    memmove(image + address, image + address + 1, IMAGE_SIZE - address - 1);
}

/* Leaves room in the draft's body for what assemble_wrong adds. */
static int fits_draft(const uint8_t *record)
{
    size_t bytes = 0;
    size_t row;

    for (row = 0; row < OBJECT_COUNT; row++) {
        size_t length = slot_in(record, row)[0];
        bytes += 2 + (length < VALUE_MAX ? length : VALUE_MAX);
    }
    return bytes <= 300;
}

/* The card of a record that may be refused. */
static void card_of_damaged(struct stock *stock)
{
    damage_record(stock->record, stock->table);
    if (fits_draft(stock->record))
        draft_card(&stock->draft, stock->record);
}

/* The record's objects with some left out, doubled or put in wrong at a row, or with another end. */
static void assemble_wrong(struct stock *stock)
{
    struct draft *draft = &stock->draft;
    const uint8_t *record = stock->record;
    size_t row = chance(ROW_COUNT);
    size_t back = chance(4) == 0 && row >= 2 ? chance(3) : 0;
    size_t ahead = chance(3) == 0;
    uint8_t value[VALUE_MAX];

    if (!fits_draft(record))
        return;
    draft_start(draft);
    draft->long_form = chance(16) == 0;
    draft_rows(draft, record, 0, row);
    if (chance(4) == 0) {
        size_t length = chance(sizeof value);
        random_bytes(value, sizeof value);
        draft_object(draft, chance(ROW_COUNT), value, length);
    }
    if (chance(8) == 0)
        draft_byte(draft, (uint8_t)(0x80 + chance(17)));
    draft_rows(draft, record, row + ahead - back, OBJECT_COUNT);
    if (chance(4))
        draft_checksum(draft);
    else
        draft->body_length -= draft->body_length > 8 ? chance(8) : 0;
    while (chance(4) == 0)
        draft_byte(draft, telling_byte());
    draft_finish(draft, record);
}

void damage_card(struct stock *stock)
{
    static void (*const changes[])(struct stock *stock) = {
        change_head, change_length, change_tag, change_template_length, change_template, change_template,
        change_tail, change_tail_begin, change_checksum, flip_bit, cut_in_two, shift_up, shift_down,
        card_of_damaged, card_of_damaged, card_of_damaged, assemble_wrong, assemble_wrong
    };

    changes[chance(COUNT(changes))](stock);
    if (chance(4))
        draft_mend(&stock->draft);
}
