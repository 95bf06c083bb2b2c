/* Plans with the plug pulled after each step. */
#include <string.h>

#include "chance.h"
#include "draft.h"
#include "plan.h"
#include "selftest.h"

static uint64_t checked(const uint8_t *table, const uint8_t *old_image, const uint8_t *new_image,
                        const uint32_t *steps, size_t count)
{
    return second_check_plan(table, TABLE_SIZE, old_image, IMAGE_SIZE, new_image, IMAGE_SIZE, steps, count);
}

static void pull_the_plug(const uint8_t *table, const uint8_t *old_image, const uint8_t *new_image)
{
    uint8_t state[IMAGE_SIZE], record[RECORD_SIZE];
    uint32_t steps[PLAN_MAX + 1] = {0};
    uint64_t answer = second_plan(table, TABLE_SIZE, old_image, IMAGE_SIZE, new_image, IMAGE_SIZE, steps, PLAN_MAX);
    size_t count = (size_t)(answer >> 40);
    size_t i;

    CHECK((answer & 0xFF) == 0 && count <= PLAN_MAX);
    CHECK(checked(table, old_image, new_image, steps, count) >> 40 == 1);
    memcpy(state, old_image, IMAGE_SIZE);
    for (i = 0; i < count; i++) {
        CHECK(steps[i] < 65536);
        CHECK(checked(table, old_image, new_image, steps, i) == 0);
        state[steps[i] >> 8 & 0xFF] = (uint8_t)steps[i];
        if (memcmp(state, old_image, IMAGE_SIZE) != 0 && memcmp(state, new_image, IMAGE_SIZE) != 0)
            CHECK(second_read(table, TABLE_SIZE, state, IMAGE_SIZE, record, RECORD_SIZE) != 0);
    }
    CHECK(memcmp(state, new_image, IMAGE_SIZE) == 0);
}

static void random_old(uint8_t *old_image, const uint8_t *new_image, const uint8_t *table, unsigned round)
{
    uint8_t record[RECORD_SIZE];
    struct draft draft;
    size_t i;

    memcpy(old_image, new_image, IMAGE_SIZE);
    if (round % 4 == 0 && chance_record_of(record, table, 70 + chance(143))) {
        draft_card(&draft, record);
        memcpy(old_image, draft.image, IMAGE_SIZE);
    }
    for (i = 0; round % 4 == 1 && i < IMAGE_SIZE; i++)
        old_image[i] = (uint8_t)chance(256);
    for (i = 0; round % 4 == 2 && i < IMAGE_SIZE; i++)
        old_image[i] ^= i == 30 ? 0x00 : 0x80;
    old_image[6 + chance(11)] ^= (uint8_t)(round % 4 == 3 ? chance(3) : 0);
}

static void test_refusals(void)
{
    uint8_t table[TABLE_SIZE], record[RECORD_SIZE];
    uint32_t steps[PLAN_MAX + 1] = {7, 7};
    struct draft draft;

    second_edition(EDITION_ISSUE, table, TABLE_SIZE);
    record_full(record);
    draft_card(&draft, record);
    CHECK(second_plan(table, TABLE_SIZE, draft.image, 255, draft.image, 256, steps, PLAN_MAX) == 20 && steps[0] == 7);
    CHECK(second_plan(table, TABLE_SIZE, draft.image, 256, draft.image, 257, steps, PLAN_MAX) == 20);
    CHECK(second_plan(table, TABLE_SIZE, draft.image, 256, draft.image, 256, steps, PLAN_MAX + 1) == 20);
    CHECK(second_plan(table, TABLE_SIZE - 1, draft.image, 256, draft.image, 256, steps, PLAN_MAX) == told(2, 0, 0));
    CHECK(second_check_plan(table, TABLE_SIZE + 1, draft.image, 256, draft.image, 256, steps, PLAN_MAX + 1) == 2);
    CHECK(checked(table, draft.image, draft.image, steps, PLAN_MAX + 1) == 60);
    CHECK(checked(table, draft.image, draft.image, steps, 0) >> 40 == 1);
    CHECK(checked(table, draft.image, draft.image, steps, 1) == 0);
    draft.image[255] = 0x44;
    CHECK(checked(table, draft.image, draft.image, steps, PLAN_MAX + 1) == told(17, 255, 0));
}

void test_plans(void)
{
    uint8_t table[TABLE_SIZE], record[RECORD_SIZE], old_image[IMAGE_SIZE];
    struct draft draft;
    unsigned round;

    for (round = 0; round < 200; round++) {
        if (round % 3 == 0)
            chance_table(table);
        else
            second_edition(round % 3, table, TABLE_SIZE);
        if (!chance_record(record, table))
            continue;
        draft_card(&draft, record);
        random_old(old_image, draft.image, table, round / 3);
        pull_the_plug(table, old_image, draft.image);
    }
    test_refusals();
}
