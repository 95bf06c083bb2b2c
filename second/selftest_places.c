/* Places and the host's command against records. */
#include <string.h>

#include "chance.h"
#include "draft.h"
#include "places.h"
#include "selftest.h"

static void test_places_of(const uint8_t *table, const struct draft *draft)
{
    uint8_t room[PLACES_SIZE], record[RECORD_SIZE];
    size_t row;

    CHECK(second_read(table, TABLE_SIZE, draft->image, IMAGE_SIZE, record, RECORD_SIZE) == 0);
    memset(room, 0xA5, PLACES_SIZE);
    CHECK(second_places(table, TABLE_SIZE, draft->image, IMAGE_SIZE, room, PLACES_SIZE) == 0);
    for (row = 0; row < OBJECT_COUNT; row++) {
        const uint8_t *slot = slot_in(record, row);
        CHECK(room[2 * row + 1] == slot[0]);
        CHECK(room[2 * row] == (slot[0] == 0 ? 0 : draft->tag_at[row] + 2));
        CHECK(memcmp(draft->image + room[2 * row], slot + 1, slot[0]) == 0);
    }
}

/* Two commands fetch the template, one more byte is refused. */
static void test_host_of(const uint8_t *table, const struct draft *draft)
{
    size_t total = draft->end - 30;
    size_t cut = 1 + chance(total - 1);
    uint8_t command[5] = {0x00, 0xB0, 0, 0, 0}, room[HOST_SIZE], whole[IMAGE_SIZE];

    command[4] = (uint8_t)cut;
    CHECK(second_host(table, TABLE_SIZE, draft->image, IMAGE_SIZE, command, 5, room, HOST_SIZE) >> 40 == cut + 2);
    CHECK(room[cut] == 0x90 && room[cut + 1] == 0x00);
    memcpy(whole, room, cut);
    command[3] = (uint8_t)cut;
    command[4] = (uint8_t)(total - cut);
    CHECK(second_host(table, TABLE_SIZE, draft->image, IMAGE_SIZE, command, 5, room, HOST_SIZE) >> 40 == total - cut + 2);
    memcpy(whole + cut, room, total - cut);
    CHECK(memcmp(whole, draft->image + 30, total) == 0);
    command[4]++;
    memset(room, 0x77, HOST_SIZE);
    CHECK(second_host(table, TABLE_SIZE, draft->image, IMAGE_SIZE, command, 5, room, HOST_SIZE) == UINT64_C(2) << 40);
    CHECK(room[0] == 0x6A && room[1] == 0x00 && room[2] == 0x77 && room[HOST_SIZE - 1] == 0x77);
}

static void test_refusals(const uint8_t *table, struct draft draft)
{
    static const uint8_t zeros[PLACES_SIZE] = {0};
    static const uint8_t command[5] = {0x00, 0xB0, 0, 0, 1};
    uint8_t room[HOST_SIZE], record[RECORD_SIZE];

    memset(room, 0x77, sizeof room);
    CHECK(second_places(NULL, 0, NULL, 0, room, PLACES_SIZE + 1) == told(20, 0, 0) && room[0] == 0x77);
    CHECK(second_host(NULL, 0, NULL, 0, NULL, 0, room, HOST_SIZE - 1) == told(20, 0, 0) && room[0] == 0x77);
    CHECK(second_host(NULL, 0, NULL, 0, NULL, 0, room, HOST_SIZE) == UINT64_C(2) << 40 && room[0] == 0x67);
    CHECK(second_host(table, TABLE_SIZE - 1, draft.image, IMAGE_SIZE, command, 5, room, HOST_SIZE) >> 40 == 2);
    CHECK(room[0] == 0x69 && room[1] == 0x00);
    draft.image[30 + chance(40)] ^= 0x80;
    CHECK(second_places(table, TABLE_SIZE, draft.image, IMAGE_SIZE, room, PLACES_SIZE)
          == second_read(table, TABLE_SIZE, draft.image, IMAGE_SIZE, record, RECORD_SIZE));
    CHECK(memcmp(room, zeros, PLACES_SIZE) == 0);
}

void test_places(void)
{
    uint8_t table[TABLE_SIZE], record[RECORD_SIZE];
    struct draft draft;
    unsigned round;

    for (round = 0; round < 2000; round++) {
        if (round % 3 == 0)
            chance_table(table);
        else
            second_edition(round % 3, table, TABLE_SIZE);
        if (!chance_record_of(record, table, 70 + chance(143)))
            continue;
        draft_card(&draft, record);
        test_places_of(table, &draft);
        test_host_of(table, &draft);
        test_refusals(table, draft);
    }
}
