/* The printed front. */
#include "compare.h"

#include <string.h>

#include "chance.h"
#include "front.h"
#include "kvk.h"

/* Lengths about the 28 of a line, and no underscore as a rule. */
static void make_printable(uint8_t *record)
{
    static const char *const signs[] = {"1", "9", "4", "M", "X", "P", "S", "D", "Z", "10", ""};
    size_t row, i;

    if (chance(2))
        set_text(record, ROW_90, signs[chance(sizeof signs / sizeof signs[0])]);
    if (chance(2))
        chance_fill(record, terminal_table, ROW_8D, 4);
    if (chance(2))
        chance_fill(record, terminal_table, ROW_87, 2 + chance(27));
    if (chance(3) == 0)
        chance_fill(record, terminal_table, ROW_84 + chance(3), chance(16));
    for (row = 0; row < OBJECT_COUNT; row++) {
        uint8_t *slot = slot_of(record, row);
        size_t length = slot[0] < VALUE_MAX ? slot[0] : VALUE_MAX;
        for (i = 1; chance(32) && i <= length; i++)
            slot[i] = slot[i] == '_' ? '-' : slot[i];
    }
}

static int is_shipped(const uint8_t *table)
{
    return memcmp(table, terminal_table, TABLE_SIZE) == 0 || memcmp(table, issue_table, TABLE_SIZE) == 0;
}

static void make_front_call(struct call *call)
{
    static const uint64_t layouts[] = {0, 0, 0, 1, 1, 2, 256, UINT64_C(1) << 32, UINT64_MAX};
    const struct stock *entry = any_stock();
    size_t attempt;

    for (attempt = 0; attempt < 12 && !is_shipped(entry->table); attempt++)
        entry = any_stock();
    make_record(&call->lent[0], entry);
    if (chance(8))
        make_printable(call->lent[0].at);
    call->number = layouts[chance(sizeof layouts / sizeof layouts[0])];
    set_room(&call->room, FRONT_SIZE);
    change_sizes(call);
}

static uint64_t library_front(const struct lent *lent)
{
    return kvk_front(lent->at[0], lent->length[0], lent->number, lent->room, lent->room_length);
}

static uint64_t front_by_second(const struct lent *lent)
{
    return second_front(lent->at[0], lent->length[0], lent->number, lent->room, lent->room_length);
}

const struct comparison fronts = {
    "front", {{"record", 1}, {NULL, 0}}, 1, 2, library_front, front_by_second, make_front_call, NULL, NULL, NULL
};
