/* The fresher of two cards: every two samples, and random pairs. */
#include "compare.h"

#include <string.h>

#include "chance.h"
#include "fresher.h"
#include "kvk.h"
#include "samples.h"

static void set_up(struct call *call, const uint8_t *table)
{
    set_bytes(&call->lent[0], table, TABLE_SIZE);
    set_room(&call->room, FRESHER_SIZE);
}

static size_t count_fixed(void)
{
    return 2 * sample_count() * sample_count();
}

static void make_fixed_pair(struct call *call, size_t which)
{
    struct draft draft;

    set_up(call, which % 2 ? issue_table : terminal_table);
    make_sample(which / 2 % sample_count(), &draft);
    set_bytes(&call->lent[1], draft.image, IMAGE_SIZE);
    make_sample(which / 2 / sample_count(), &draft);
    set_bytes(&call->lent[2], draft.image, IMAGE_SIZE);
}

/* A card of the table with a validity of the century's ends or any. */
static void put_validity(struct bytes *image, const struct stock *entry)
{
    static const char *const values[] = {"0100", "1200", "0199", "1299", "0150", "1249"};
    uint8_t record[RECORD_SIZE];
    struct draft draft;

    memcpy(record, entry->record, RECORD_SIZE);
    if (chance(2))
        set_text(record, ROW_8D, values[chance(sizeof values / sizeof values[0])]);
    else
        chance_fill(record, entry->table, ROW_8D, 4);
    draft_card(&draft, record);
    set_bytes(image, draft.image, IMAGE_SIZE);
}

static void make_pair(struct call *call)
{
    const struct stock *entry = any_stock();
    size_t i;

    set_up(call, entry->table);
    make_edition(&call->lent[0], entry);
    for (i = 1; i <= 2; i++) {
        size_t dice = chance(8);
        if (dice < 4)
            put_validity(&call->lent[i], entry);
        else if (dice < 6)
            make_variation(&call->lent[i], entry);
        else
            make_image(&call->lent[i], dice == 6 ? entry : any_stock());
    }
    change_sizes(call);
}

static uint64_t library_fresher(const struct lent *lent)
{
    return kvk_fresher(lent->at[0], lent->length[0], lent->at[1], lent->length[1], lent->at[2], lent->length[2],
                       lent->room, lent->room_length);
}

static uint64_t fresher_by_second(const struct lent *lent)
{
    return second_fresher(lent->at[0], lent->length[0], lent->at[1], lent->length[1], lent->at[2], lent->length[2],
                          lent->room, lent->room_length);
}

const struct comparison fresher_cards = {
    "fresher", {{"edition", 1}, {"first", 1}, {"second", 1}, {NULL, 0}}, 1, 2, library_fresher, fresher_by_second, make_pair,
    NULL, count_fixed, make_fixed_pair
};
