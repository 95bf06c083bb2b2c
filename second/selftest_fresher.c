/* The fresher of two cards, against months counted one by one. */
#include <stdio.h>
#include <string.h>

#include "draft.h"
#include "fresher.h"
#include "samples.h"
#include "selftest.h"

static uint8_t table[TABLE_SIZE];

static uint64_t fresher(const uint8_t *first, const uint8_t *second, uint8_t *room)
{
    memset(room, 0xA5, FRESHER_SIZE);
    return second_fresher(table, TABLE_SIZE, first, IMAGE_SIZE, second, IMAGE_SIZE, room, FRESHER_SIZE);
}

static void card_until(struct draft *draft, unsigned month, unsigned year)
{
    char value[8];
    uint8_t record[RECORD_SIZE];

    record_full(record);
    snprintf(value, sizeof value, "%02u%02u", month % 100, year % 100);
    set_text(record, ROW_8D, value);
    draft_card(draft, record);
}

static void test_from(unsigned month, unsigned year)
{
    struct draft first, second;
    int32_t distance = -(int32_t)(year * 12 + month - 1);
    unsigned then;
    uint8_t room[FRESHER_SIZE];

    card_until(&first, month, year);
    for (then = 0; then < 1200; then++, distance++) {
        uint32_t bits = (uint32_t)distance;
        card_until(&second, then % 12 + 1, then / 12);
        CHECK(fresher(first.image, second.image, room) == 0);
        CHECK(room[0] == (distance > 0 ? 2 : 1) && room[1] == first.tag_at[ROW_87] + 2 && room[2] == 10 && room[3] == 0);
        CHECK(room[4] == bits >> 24 && room[5] == (bits >> 16 & 0xFF) && room[6] == (bits >> 8 & 0xFF)
              && room[7] == (bits & 0xFF));
    }
}

/* Every two samples: the distance turns its sign with the cards, and so does the card unless it is 0. */
static void test_turned(void)
{
    static const uint8_t none[FRESHER_SIZE] = {1};
    uint8_t forth[FRESHER_SIZE], back[FRESHER_SIZE], record[RECORD_SIZE];
    struct draft first, second;
    uint64_t own, other;
    size_t i, k;

    for (i = 0; i < sample_count(); i++) {
        for (k = 0; k < sample_count(); k++) {
            make_sample(i, &first);
            make_sample(k, &second);
            own = second_read(table, TABLE_SIZE, first.image, IMAGE_SIZE, record, RECORD_SIZE);
            other = second_read(table, TABLE_SIZE, second.image, IMAGE_SIZE, record, RECORD_SIZE);
            if (fresher(first.image, second.image, forth) != 0) {
                CHECK(memcmp(forth, none, FRESHER_SIZE) == 0);
                CHECK(fresher(first.image, second.image, forth) == (own != 0 ? own : other != 0 ? other : 24));
                continue;
            }
            CHECK(fresher(second.image, first.image, back) == 0);
            CHECK(memcmp(forth + 4, none + 4, 4) == 0 || (forth[0] != back[0] && forth[1] == back[1] && forth[2] == back[2]));
            CHECK((uint8_t)(forth[7] + back[7]) == 0);
        }
    }
}

void test_fresher(void)
{
    uint8_t room[FRESHER_SIZE + 1] = {7, 7};
    struct draft first, second;

    second_edition(EDITION_ISSUE, table, TABLE_SIZE);
    test_from(1, 0);
    test_from(12, 0);
    test_from(6, 50);
    test_from(1, 99);
    test_from(12, 99);
    second_edition(EDITION_TERMINAL, table, TABLE_SIZE);
    test_turned();
    CHECK(second_fresher(NULL, 0, NULL, 0, NULL, 0, room, FRESHER_SIZE + 1) == told(20, 0, 0) && room[1] == 7);
    card_until(&first, 13, 20);
    card_until(&second, 0, 20);
    CHECK(fresher(first.image, second.image, room) == told(10, (unsigned)first.tag_at[ROW_8D] + 2, 0x8D));
    card_until(&first, 12, 20);
    second.image[0] = 0;
    CHECK(fresher(first.image, second.image, room) == told(3, 0, 0));
}
