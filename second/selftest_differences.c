/* Two cards side by side: the second is built again from the first, the list and the second's values at it. */
#include <string.h>

#include "chance.h"
#include "differences.h"
#include "draft.h"
#include "selftest.h"

static size_t row_of(unsigned tag)
{
    size_t row = 0;

    while (second_tags[row] != tag)
        row++;
    return row;
}

/* Where in a record the byte of this address stands. */
static size_t index_of(size_t address)
{
    if (address == 0)
        return 0;
    if (address == 255)
        return RECORD_LAST;
    return address == 29 ? RECORD_LAST - 1 : RECORD_FREE + address - 6;
}

static void rebuild(const uint8_t *first, const uint8_t *second, const uint32_t *list, size_t count, uint8_t *record)
{
    size_t i;

    memcpy(record, first, RECORD_SIZE);
    for (i = 0; i < count; i++) {
        if (list[i] >> 16 == ADDRESS_DIFFERS) {
            size_t at = index_of(list[i] & 0xFF);
            record[at] = second[at];
        } else {
            size_t at = RECORD_SLOTS + row_of(list[i] >> 8 & 0xFF) * SLOT_SIZE;
            memcpy(record + at, second + at, SLOT_SIZE);
        }
    }
}

static void check_entry(uint32_t entry, const uint8_t *first, const uint8_t *second)
{
    size_t at = RECORD_SLOTS + row_of(entry >> 8 & 0xFF) * SLOT_SIZE;
    size_t index = entry & 0xFF;

    CHECK((entry >> 16 == ABSENT_IN_FIRST) == (first[at] == 0));
    CHECK((entry >> 16 == ABSENT_IN_SECOND) == (second[at] == 0));
    if (entry >> 16 == INDEX_DIFFERS) {
        CHECK(first[at] == second[at] && index < first[at]);
        CHECK(memcmp(first + at + 1, second + at + 1, index) == 0 && first[at + 1 + index] != second[at + 1 + index]);
    } else {
        CHECK(first[at] != second[at] && index == 0);
    }
}

static void test_pair(const uint8_t *table, const uint8_t *first, const uint8_t *second)
{
    uint32_t list[DIFFERENCE_COUNT];
    uint8_t record[RECORD_SIZE], image[IMAGE_SIZE];
    struct draft drafts[2];
    uint64_t answer;
    size_t i;

    draft_card(&drafts[0], first);
    draft_card(&drafts[1], second);
    memset(list, 0xA5, sizeof list);
    answer = second_differences(table, TABLE_SIZE, drafts[0].image, IMAGE_SIZE, drafts[1].image, IMAGE_SIZE,
                                list, DIFFERENCE_COUNT);
    CHECK((answer & UINT64_C(0xFFFFFFFFFF)) == 0);
    CHECK((answer == 0) == (memcmp(drafts[0].image, drafts[1].image, IMAGE_SIZE) == 0));
    rebuild(first, second, list, (size_t)(answer >> 40), record);
    CHECK(second_write(table, TABLE_SIZE, record, RECORD_SIZE, image, IMAGE_SIZE) == 0);
    CHECK(memcmp(image, drafts[1].image, IMAGE_SIZE) == 0);
    for (i = 0; i < DIFFERENCE_COUNT; i++) {
        if (i >= answer >> 40)
            CHECK(list[i] == 0);
        else if (list[i] >> 16 != ADDRESS_DIFFERS)
            check_entry(list[i], first, second);
    }
}

static void test_refused_pairs(const uint8_t *table, const uint8_t *record)
{
    uint32_t list[DIFFERENCE_COUNT + 1] = {7, 7};
    struct draft draft, other;

    draft_card(&draft, record);
    CHECK(second_differences(NULL, 0, NULL, 0, NULL, 0, list, DIFFERENCE_COUNT + 1) == 20 && list[1] == 7);
    CHECK(second_differences(table, TABLE_SIZE, draft.image, 255, draft.image, 257, list, DIFFERENCE_COUNT) == 1);
    CHECK(list[0] == 0 && list[1] == 0);
    other = draft;
    other.image[0] = 0;
    draft.image[30] = 0;
    CHECK(second_differences(table, TABLE_SIZE, draft.image, 256, other.image, 256, list, DIFFERENCE_COUNT)
          == told(4, 30, 0));
    CHECK(second_differences(table, TABLE_SIZE, other.image, 256, draft.image, 256, list, DIFFERENCE_COUNT)
          == told(3, 0, 0));
}

void test_differences(void)
{
    uint8_t table[TABLE_SIZE], first[RECORD_SIZE], second[RECORD_SIZE];
    unsigned round;

    for (round = 0; round < 2000; round++) {
        if (round % 3 == 0)
            chance_table(table);
        else
            second_edition(round % 3, table, TABLE_SIZE);
        if (!chance_record_of(first, table, 70 + chance(143)) || !chance_record_of(second, table, 70 + chance(143)))
            continue;
        test_pair(table, first, second);
        test_pair(table, first, first);
        memcpy(second, first, RECORD_SIZE);
        second[RECORD_FREE + round % FREE_COUNT] ^= 0x10;
        chance_fill(second, table, round % OBJECT_COUNT, slot_in(first, round % OBJECT_COUNT)[0]);
        test_pair(table, first, second);
        test_refused_pairs(table, first);
    }
}
