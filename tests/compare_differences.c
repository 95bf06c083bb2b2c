/* Two cards side by side. */
#include "compare.h"

#include "chance.h"
#include "differences.h"
#include "kvk.h"

static void make_two(struct call *call)
{
    const struct stock *entry = any_stock();
    size_t i;

    make_edition(&call->lent[0], entry);
    for (i = 1; i <= 2; i++) {
        size_t dice = chance(8);
        if (dice < 2)
            set_bytes(&call->lent[i], entry->draft.image, IMAGE_SIZE);
        else if (dice < 6)
            make_variation(&call->lent[i], entry);
        else
            make_image(&call->lent[i], dice == 6 ? entry : any_stock());
    }
    set_room(&call->room, DIFFERENCE_COUNT * sizeof(uint32_t));
    change_sizes(call);
}

static uint64_t library_differences(const struct lent *lent)
{
    return kvk_differences(lent->at[0], lent->length[0], lent->at[1], lent->length[1], lent->at[2], lent->length[2],
                           (uint32_t *)(void *)lent->room, lent->room_length / sizeof(uint32_t));
}

static uint64_t differences_by_second(const struct lent *lent)
{
    return second_differences(lent->at[0], lent->length[0], lent->at[1], lent->length[1], lent->at[2], lent->length[2],
                              (uint32_t *)(void *)lent->room, lent->room_length / sizeof(uint32_t));
}

const struct comparison differences = {
    "differences", {{"edition", 1}, {"first", 1}, {"second", 1}, {NULL, 0}}, sizeof(uint32_t), 2, library_differences,
    differences_by_second, make_two, NULL, NULL, NULL
};
