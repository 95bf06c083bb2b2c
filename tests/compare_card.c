/* Reading and writing, and the stock of tables, records and cards that all comparisons draw on. */
#include "compare.h"

#include <string.h>

#include "chance.h"
#include "kvk.h"

enum { STOCK = 512, EDGE_STOCK = 64 };

uint8_t terminal_table[TABLE_SIZE], issue_table[TABLE_SIZE], wide_table[TABLE_SIZE];
static struct stock stock[STOCK];

/* The stock */

static void make_tables(void)
{
    static const struct rule_row any_text = {0, RULE_TEXT, UINT32_C(0x1FFFFFFE)};
    size_t row;

    second_edition(EDITION_TERMINAL, terminal_table, TABLE_SIZE);
    second_edition(EDITION_ISSUE, issue_table, TABLE_SIZE);
    memcpy(wide_table, terminal_table, TABLE_SIZE);
    for (row = 0; row < OBJECT_COUNT; row++)
        row_to_table(wide_table, row, any_text);
    wide_table[TABLE_NUMBER] = 255;
}

static void choose_table(uint8_t *table)
{
    static const uint8_t *const known[] = {terminal_table, terminal_table, issue_table, issue_table, wide_table};

    if (chance(3) == 0)
        chance_table(table);
    else
        memcpy(table, known[chance(sizeof known / sizeof known[0])], TABLE_SIZE);
}

static void renew(struct stock *entry)
{
    uint8_t table[TABLE_SIZE];

    do
        choose_table(table);
    while (!stock_up(entry, table));
}

/* The first entries keep template lengths at both sides of each edge, where the table has them. */
void fill_stock(void)
{
    static const uint8_t lengths[] = {68, 69, 70, 71, 92, 93, 94, 127, 128, 129, 211, 212, 213, 214, 73};
    size_t i;

    make_tables();
    for (i = 0; i < STOCK; i++) {
        const uint8_t *table = i % 2 ? issue_table : terminal_table;
        if (i >= EDGE_STOCK || !stock_up_at(&stock[i], table, lengths[i % sizeof lengths]))
            renew(&stock[i]);
    }
}

void renew_stock(void)
{
    if (chance(8) == 0)
        renew(&stock[EDGE_STOCK + chance(STOCK - EDGE_STOCK)]);
}

const struct stock *any_stock(void)
{
    return &stock[chance(STOCK)];
}

/* Parts */

void set_bytes(struct bytes *bytes, const uint8_t *from, size_t length)
{
    bytes->length = length;
    memcpy(bytes->at, from, length);
}

void set_room(struct bytes *bytes, size_t length)
{
    bytes->length = length;
    memset(bytes->at, (int)chance(256), length);
}

static void change_size(struct bytes *bytes, size_t word)
{
    enum { FAR = 600 };
    size_t near = bytes->length + chance(5) * word - 2 * word;
    size_t length = chance(2) && near <= PART_MAX ? near : chance(FAR + 1) / word * word;

    if (length > bytes->length)
        random_bytes(bytes->at + bytes->length, length - bytes->length);
    bytes->length = length;
}

void change_sizes(struct call *call)
{
    size_t count = 0;
    size_t which;

    while (call->kind->parts[count].name != NULL)
        count++;
    while (chance(40) == 0) {
        which = chance(count + 1);
        if (which < count)
            change_size(&call->lent[which], call->kind->parts[which].word);
        else
            change_size(&call->room, call->kind->room_word);
    }
}

void make_edition(struct bytes *edition, const struct stock *entry)
{
    size_t dice = chance(64);

    set_bytes(edition, entry->table, TABLE_SIZE);
    if (dice < 8)
        set_bytes(edition, dice % 2 ? terminal_table : issue_table, TABLE_SIZE);
    else if (dice < 10)
        set_bytes(edition, any_stock()->table, TABLE_SIZE);
    else if (dice < 13)
        damage_table(edition->at);
    else if (dice == 13)
        random_bytes(edition->at, TABLE_SIZE);
}

static size_t how_many_changes(void)
{
    static const uint8_t numbers[] = {0, 0, 1, 1, 1, 1, 2, 3};

    return numbers[chance(sizeof numbers)];
}

void make_image(struct bytes *image, const struct stock *entry)
{
    static struct stock damaged;
    size_t changes = how_many_changes();

    damaged = *entry;
    for (; changes > 0; changes--)
        damage_card(&damaged);
    set_bytes(image, damaged.draft.image, IMAGE_SIZE);
    if (chance(64) == 0)
        random_bytes(image->at, IMAGE_SIZE);
}

void make_record(struct bytes *record, const struct stock *entry)
{
    size_t changes = how_many_changes();

    set_bytes(record, entry->record, RECORD_SIZE);
    for (; changes > 0; changes--)
        damage_record(record->at, entry->table);
    if (chance(64) == 0)
        random_bytes(record->at, RECORD_SIZE);
}

void make_variation(struct bytes *image, const struct stock *entry)
{
    uint8_t record[RECORD_SIZE];
    struct draft draft;
    size_t changes;

    memcpy(record, entry->record, RECORD_SIZE);
    for (changes = chance(4); changes > 0; changes--)
        vary_record(record, entry->table);
    draft_card(&draft, record);
    set_bytes(image, draft.image, IMAGE_SIZE);
}

/* Reading and writing */

static void make_reading(struct call *call)
{
    const struct stock *entry = any_stock();

    make_edition(&call->lent[0], entry);
    make_image(&call->lent[1], entry);
    set_room(&call->room, RECORD_SIZE);
    change_sizes(call);
}

static void make_writing(struct call *call)
{
    const struct stock *entry = any_stock();

    make_edition(&call->lent[0], entry);
    make_record(&call->lent[1], entry);
    if (chance(4))
        put_number(call->lent[1].at, call->lent[0].at);
    set_room(&call->room, IMAGE_SIZE);
    change_sizes(call);
}

/* The record is the room. */
static void make_renumbering(struct call *call)
{
    const struct stock *entry = any_stock();

    make_edition(&call->lent[0], entry);
    make_record(&call->room, entry);
    if (chance(2))
        random_bytes(call->room.at + RECORD_NUMBER, 1);
    change_sizes(call);
}

static uint64_t library_read(const struct lent *lent)
{
    return kvk_read(lent->at[0], lent->length[0], lent->at[1], lent->length[1], lent->room, lent->room_length);
}

static uint64_t read_by_second(const struct lent *lent)
{
    return second_read(lent->at[0], lent->length[0], lent->at[1], lent->length[1], lent->room, lent->room_length);
}

static uint64_t library_write(const struct lent *lent)
{
    return kvk_write(lent->at[0], lent->length[0], lent->at[1], lent->length[1], lent->room, lent->room_length);
}

static uint64_t written_by_second(const struct lent *lent)
{
    return second_write(lent->at[0], lent->length[0], lent->at[1], lent->length[1], lent->room, lent->room_length);
}

static uint64_t library_renumber(const struct lent *lent)
{
    return kvk_renumber(lent->at[0], lent->length[0], lent->room, lent->room_length);
}

static uint64_t renumbered_by_second(const struct lent *lent)
{
    return second_renumber(lent->at[0], lent->length[0], lent->room, lent->room_length);
}

const struct comparison reading = {
    "reading", {{"edition", 1}, {"image", 1}, {NULL, 0}}, 1, 12, library_read, read_by_second, make_reading, NULL, NULL, NULL
};
const struct comparison writing = {
    "writing", {{"edition", 1}, {"record", 1}, {NULL, 0}}, 1, 8, library_write, written_by_second, make_writing, NULL, NULL, NULL
};
const struct comparison renumbering = {
    "renumber", {{"edition", 1}, {NULL, 0}}, 1, 2, library_renumber, renumbered_by_second, make_renumbering, NULL, NULL, NULL
};
