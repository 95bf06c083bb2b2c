/* Rewriting a card. The library's plan is its own to choose: the second program checks it, and for some plans the plug is
   pulled after each step. The check itself is compared. */
#include "compare.h"

#include <string.h>

#include "chance.h"
#include "kvk.h"
#include "plan.h"

enum { PULLED = 200 };

/* What the card held before: another card, anything, or nearly the new card. */
static void make_old(struct bytes *image, const struct stock *entry)
{
    size_t changes;

    switch (chance(6)) {
    case 0:
        image->length = IMAGE_SIZE;
        random_bytes(image->at, IMAGE_SIZE);
        break;
    case 1:
        image->length = IMAGE_SIZE;
        memset(image->at, (int)chance(256), IMAGE_SIZE);
        break;
    case 2:
        set_bytes(image, any_stock()->draft.image, IMAGE_SIZE);
        break;
    case 3:
        set_bytes(image, entry->draft.image, IMAGE_SIZE);
        for (changes = chance(4); changes > 0; changes--)
            random_bytes(image->at + chance(IMAGE_SIZE), 1);
        break;
    default:
        make_variation(image, entry);
    }
}

static void make_ends(struct call *call, const struct stock *entry)
{
    make_edition(&call->lent[0], entry);
    make_old(&call->lent[1], entry);
    if (chance(4))
        set_bytes(&call->lent[2], entry->draft.image, IMAGE_SIZE);
    else
        make_image(&call->lent[2], entry);
}

static void make_plan_call(struct call *call)
{
    make_ends(call, any_stock());
    set_room(&call->room, PLAN_MAX * sizeof(uint32_t));
    change_sizes(call);
}

/* A plan that is not refused. */
static void make_pulled_call(struct call *call, size_t which)
{
    const struct stock *entry;
    uint8_t record[RECORD_SIZE];

    (void)which;
    do
        entry = any_stock();
    while (second_read(entry->table, TABLE_SIZE, entry->draft.image, IMAGE_SIZE, record, RECORD_SIZE) != 0);
    set_bytes(&call->lent[0], entry->table, TABLE_SIZE);
    make_old(&call->lent[1], entry);
    set_bytes(&call->lent[2], entry->draft.image, IMAGE_SIZE);
    set_room(&call->room, PLAN_MAX * sizeof(uint32_t));
}

static size_t count_pulled(void)
{
    return PULLED;
}

/* NULL if a card may be left in this state, by both readers. */
static const char *look_at(const struct call *call, const uint8_t *state)
{
    const struct bytes *edition = &call->lent[0];
    uint8_t record[RECORD_SIZE];

    if (memcmp(state, call->lent[1].at, IMAGE_SIZE) == 0 || memcmp(state, call->lent[2].at, IMAGE_SIZE) == 0)
        return NULL;
    if (kvk_read(edition->at, edition->length, state, IMAGE_SIZE, record, RECORD_SIZE) == 0)
        return "a state on the way is accepted by the library";
    if (second_read(edition->at, edition->length, state, IMAGE_SIZE, record, RECORD_SIZE) == 0)
        return "a state on the way is accepted by the second program";
    return NULL;
}

static const char *pull_the_plug(const struct call *call, const uint32_t *steps, size_t count)
{
    uint8_t state[IMAGE_SIZE];
    const char *fault = NULL;
    size_t i;

    memcpy(state, call->lent[1].at, IMAGE_SIZE);
    for (i = 0; i < count && fault == NULL; i++) {
        if (steps[i] >> 8 > 255)
            return "a step goes past address 255";
        state[steps[i] >> 8] = (uint8_t)steps[i];
        fault = look_at(call, state);
    }
    if (fault == NULL && memcmp(state, call->lent[2].at, IMAGE_SIZE) != 0)
        fault = "the plan does not end in the new image";
    return fault;
}

static const char *judge_plan(const struct call *call, const struct result *ours, const struct result *theirs)
{
    const struct bytes *lent = call->lent;
    uint32_t steps[PLAN_MAX];
    size_t count = (size_t)(ours->answer >> 40);

    if ((ours->answer & UINT64_C(0xFFFFFFFFFF)) != (theirs->answer & UINT64_C(0xFFFFFFFFFF)))
        return "the refusals differ";
    if ((ours->answer & 0xFF) != 0 && count != 0)
        return "a refusal has a value";
    if (count > PLAN_MAX)
        return "more than 257 steps";
    if (memcmp(ours->room.at + count * sizeof steps[0], call->room.at + count * sizeof steps[0],
               call->room.length - count * sizeof steps[0]) != 0)
        return "the room behind the plan was written to";
    if ((ours->answer & 0xFF) != 0)
        return NULL;
    memcpy(steps, ours->room.at, count * sizeof steps[0]);
    if (second_check_plan(lent[0].at, lent[0].length, lent[1].at, lent[1].length, lent[2].at, lent[2].length,
                          steps, count) >> 40 != 1)
        return "the plan does not pass the second program's check";
    return call->number != 0 ? pull_the_plug(call, steps, count) : NULL;
}

/* Plans to check: a right one with no, one or more changes, or the bytes that differ in any order. */
static void make_check_call(struct call *call)
{
    const struct stock *entry = any_stock();
    struct bytes *steps = &call->lent[3];
    uint32_t words[PLAN_MAX + 40] = {0};
    size_t count, i;

    make_ends(call, entry);
    count = (size_t)(second_plan(call->lent[0].at, TABLE_SIZE, call->lent[1].at, IMAGE_SIZE, call->lent[2].at, IMAGE_SIZE,
                                 words, PLAN_MAX) >> 40);
    if (count > 2 && chance(4) == 0) {
        count -= 2;
        memmove(words, words + 1, count * sizeof words[0]);
    }
    for (i = chance(3); count > 0 && chance(2) && i > 0; i--)
        words[chance(count)] = words[chance(count)];
    if (count > 0 && chance(4) == 0)
        words[chance(count)] = (uint32_t)(chance(chance(2) ? 256 : 300) << 8 | chance(256));
    if (chance(32) == 0)
        words[count++] = (uint32_t)chance(UINT32_C(0x80000000)) * 2u;
    for (i = chance(8) ? 0 : chance(30); count > 0 && count < PLAN_MAX + 40 && i > 0; i--, count++)
        words[count] = words[count - 1];
    set_bytes(steps, (const uint8_t *)words, count * sizeof words[0]);
    change_sizes(call);
}

static uint64_t library_plan(const struct lent *lent)
{
    return kvk_plan(lent->at[0], lent->length[0], lent->at[1], lent->length[1], lent->at[2], lent->length[2],
                    (uint32_t *)(void *)lent->room, lent->room_length / sizeof(uint32_t));
}

static uint64_t plan_by_second(const struct lent *lent)
{
    return second_plan(lent->at[0], lent->length[0], lent->at[1], lent->length[1], lent->at[2], lent->length[2],
                       (uint32_t *)(void *)lent->room, lent->room_length / sizeof(uint32_t));
}

static uint64_t library_check(const struct lent *lent)
{
    return kvk_check_plan(lent->at[0], lent->length[0], lent->at[1], lent->length[1], lent->at[2], lent->length[2],
                          (const uint32_t *)(const void *)lent->at[3], lent->length[3] / sizeof(uint32_t));
}

static uint64_t check_by_second(const struct lent *lent)
{
    return second_check_plan(lent->at[0], lent->length[0], lent->at[1], lent->length[1], lent->at[2], lent->length[2],
                             (const uint32_t *)(const void *)lent->at[3], lent->length[3] / sizeof(uint32_t));
}

const struct comparison plans = {
    "plan", {{"edition", 1}, {"old", 1}, {"new", 1}, {NULL, 0}}, 4, 1, library_plan, plan_by_second, make_plan_call,
    judge_plan, count_pulled, make_pulled_call
};
const struct comparison plan_checks = {
    "check plan", {{"edition", 1}, {"old", 1}, {"new", 1}, {"steps", 4}, {NULL, 0}}, 1, 1, library_check,
    check_by_second, make_check_call, NULL, NULL, NULL
};
