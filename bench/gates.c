/* The gates: accepted cards and records, each changed so that the call ends at one place of its work. What a call costs that
   ends at a gate, less what it costs at the gate before, is the cost of the part between them. */
#include "corpora.h"

#include <stdio.h>
#include <stdlib.h>
#include <string.h>

#include "draft.h"
#include "kvk.h"

/* Changes: each says 0 if the item is none for it. */

static int change_first_row(struct item *item)
{
    item->table[1] = 0xFF;
    return 1;
}

static int change_number(struct item *item)
{
    item->table[TABLE_NUMBER] = 0;
    return 1;
}

static int change_nothing(struct item *item)
{
    (void)item;
    return 1;
}

/* Cards */

static int put_byte(struct item *item, size_t address, uint8_t byte)
{
    item->image[address] = byte;
    return 1;
}

static size_t value_at(const struct item *item, size_t row)
{
    struct draft draft;

    draft_card(&draft, item->record);
    return draft.tag_at[row] + 2;
}

static size_t end_of(const struct item *item)
{
    struct draft draft;

    draft_card(&draft, item->record);
    return draft.end;
}

static int change_address_0(struct item *item) { return put_byte(item, 0, 0); }
static int change_address_28(struct item *item) { return put_byte(item, 28, 0); }
static int change_template_tag(struct item *item) { return put_byte(item, 30, 0); }
static int change_template_length(struct item *item) { return put_byte(item, 31, 0x82); }
static int change_first_tag(struct item *item) { return put_byte(item, value_at(item, ROW_80) - 2, 0); }
static int change_first_length(struct item *item) { return put_byte(item, value_at(item, ROW_80) - 1, 0); }
static int change_first_byte(struct item *item) { return put_byte(item, value_at(item, ROW_80), 0); }
static int change_second_tag(struct item *item) { return put_byte(item, value_at(item, ROW_81) - 2, 0); }
static int change_middle_tag(struct item *item) { return put_byte(item, value_at(item, ROW_87) - 2, 0); }
static int change_last_tag(struct item *item) { return put_byte(item, value_at(item, ROW_8E) - 2, 0); }
static int change_filler_tag(struct item *item) { return put_byte(item, end_of(item), 0); }
static int change_filler_length(struct item *item) { return put_byte(item, end_of(item) + 1, 0); }
static int change_last_byte(struct item *item) { return put_byte(item, 255, 0x55); }

static int change_checksum(struct item *item)
{
    item->image[value_at(item, ROW_8E)] ^= 1;
    return 1;
}

static int change_last_of_first(struct item *item)
{
    return put_byte(item, value_at(item, ROW_80) + slot_in(item->record, ROW_80)[0] - 1, 0);
}

static int add_behind_checksum(struct item *item)
{
    struct draft draft;

    if (template_length(item->record) == 212)
        return 0;
    draft_start(&draft);
    draft_rows(&draft, item->record, 0, OBJECT_COUNT);
    draft_checksum(&draft);
    draft_byte(&draft, 0);
    draft_finish(&draft, item->record);
    memcpy(item->image, draft.image, IMAGE_SIZE);
    return 1;
}

static int change_first_blank(struct item *item)
{
    size_t end = end_of(item);

    return put_byte(item, end + (255 - end > 130 ? 3 : 2), 0);
}

static int change_last_blank(struct item *item)
{
    return put_byte(item, end_of(item) == 125 ? 253 : 254, 0);
}

/* Records */

static int put_in_slot(struct item *item, size_t row, size_t index, uint8_t byte)
{
    slot_of(item->record, row)[index] = byte;
    return 1;
}

static int change_record_number(struct item *item)
{
    item->record[RECORD_NUMBER] ^= 0xFF;
    return 1;
}

static int change_record_first(struct item *item)
{
    item->record[0] = 0;
    return 1;
}

static int shorten_first(struct item *item) { return put_in_slot(item, ROW_80, 0, 1); }
static int change_first_in_slot(struct item *item) { return put_in_slot(item, ROW_80, 1, 0); }
static int shorten_second(struct item *item) { return put_in_slot(item, ROW_81, 0, 1); }
static int shorten_middle(struct item *item) { return put_in_slot(item, ROW_87, 0, 1); }
static int shorten_last(struct item *item) { return put_in_slot(item, ROW_8D, 0, 1); }

static int change_last_in_slot(struct item *item)
{
    return put_in_slot(item, ROW_80, slot_in(item->record, ROW_80)[0], 0);
}

/* The gates, in the order in which a call comes to them */

#define READ(name, number, change) {name, 0, number, IMAGE_SIZE, RECORD_SIZE, change, {{{0}, {0}, {0}}}}
#define WRITE(name, number, change) {name, 1, number, RECORD_SIZE, IMAGE_SIZE, change, {{{0}, {0}, {0}}}}

struct gate gates[] = {
    {"the room's size", 0, 20, IMAGE_SIZE, RECORD_SIZE - 1, change_nothing, {{{0}, {0}, {0}}}},
    {"the image's size", 0, 1, IMAGE_SIZE - 1, RECORD_SIZE, change_nothing, {{{0}, {0}, {0}}}},
    READ("the edition's first row", 2, change_first_row),
    READ("the edition's number, behind all rows", 2, change_number),
    READ("address 0", 3, change_address_0),
    READ("address 28", 3, change_address_28),
    READ("the template's tag", 4, change_template_tag),
    READ("the template's length", 4, change_template_length),
    READ("the first object's tag", 5, change_first_tag),
    READ("its length", 7, change_first_length),
    READ("its first byte", 9, change_first_byte),
    READ("its last byte", 9, change_last_of_first),
    READ("the second object's tag", 5, change_second_tag),
    READ("the family name's tag", 5, change_middle_tag),
    READ("the checksum's tag, behind all objects", 5, change_last_tag),
    READ("a byte behind the checksum", 12, add_behind_checksum),
    READ("the checksum, behind the sums", 13, change_checksum),
    READ("the filler's tag", 14, change_filler_tag),
    READ("the filler's length", 15, change_filler_length),
    READ("the filler's first blank", 16, change_first_blank),
    READ("the filler's last blank", 16, change_last_blank),
    READ("the last byte", 17, change_last_byte),
    READ("accepted", 0, change_nothing),
    {"the room's size", 1, 20, RECORD_SIZE, IMAGE_SIZE - 1, change_nothing, {{{0}, {0}, {0}}}},
    WRITE("the edition's first row", 2, change_first_row),
    WRITE("the edition's number, behind all rows", 2, change_number),
    WRITE("the record's number", 22, change_record_number),
    WRITE("address 0", 3, change_record_first),
    WRITE("the first object's length", 7, shorten_first),
    WRITE("its first byte", 9, change_first_in_slot),
    WRITE("its last byte", 9, change_last_in_slot),
    WRITE("the second object's length", 7, shorten_second),
    WRITE("the family name's length", 7, shorten_middle),
    WRITE("the validity's length, behind all others", 7, shorten_last),
    WRITE("accepted", 0, change_nothing)
};

const size_t gate_count = sizeof gates / sizeof gates[0];

/* Making them */

/* 0 if the item is none for the gate. */
static int put_up(struct gate *gate, size_t place, const struct item *from)
{
    function *library = gate->writing ? kvk_write : kvk_read;
    function *second = gate->writing ? second_write : second_read;
    struct item *item = &gate->items[place];
    const uint8_t *source = gate->writing ? item->record : item->image;
    uint8_t room[RECORD_SIZE];

    *item = *from;
    if (!gate->change(item))
        return 0;
    if ((second(item->table, TABLE_SIZE, source, gate->source_length, room, gate->room_length) & 0xFF) != gate->number
        || (library(item->table, TABLE_SIZE, source, gate->source_length, room, gate->room_length) & 0xFF) != gate->number) {
        fprintf(stderr, "bench: a call does not end at the gate '%s'\n", gate->name);
        exit(1);
    }
    return 1;
}

static int put_up_all(size_t place, const struct item *from)
{
    size_t i;

    for (i = 0; i < gate_count; i++) {
        if (!put_up(&gates[i], place, from))
            return 0;
    }
    return 1;
}

/* Both shipped editions in turn, as in the corpus. */
void make_gates(void)
{
    size_t place = 0;
    size_t i;

    fprintf(stderr, "bench: making %d items for each of %d gates\n", (int)COUNTED, (int)gate_count);
    for (i = 0; i < ITEMS && place < COUNTED; i++) {
        if (i % 2 == place % 2)
            place += (size_t)put_up_all(place, &corpora[0].items[i]);
    }
    if (place < COUNTED) {
        fputs("bench: there are too few cards for the gates\n", stderr);
        exit(1);
    }
}
