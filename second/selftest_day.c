/* Days against a plain search and against one another. */
#include <stdlib.h>
#include <string.h>

#include "chance.h"
#include "day.h"
#include "draft.h"
#include "selftest.h"

enum { MANY = DAY_MAX + 2, CARDS = 40 };

static uint8_t cards[CARDS][IMAGE_SIZE];
static uint8_t numbers[CARDS][NUMBER_SIZE + 1];
static uint8_t images[MANY * IMAGE_SIZE];
static uint8_t files[2][DAY_SIZE_MAX + 300];

/* Some of them have the same number. */
static void make_cards(void)
{
    uint8_t table[TABLE_SIZE], record[RECORD_SIZE];
    struct draft draft;
    size_t i;

    second_edition(EDITION_TERMINAL, table, TABLE_SIZE);
    for (i = 0; i < CARDS; i++) {
        const uint8_t *slot;
        CHECK(chance_record(record, table));
        slot = slot_in(record, ROW_82);
        if (i % 3 == 2)
            memcpy(slot_of(record, ROW_82) + 1, "12345678901234567890" + i % 2, slot[0]);
        draft_card(&draft, record);
        memcpy(cards[i], draft.image, IMAGE_SIZE);
        memset(numbers[i], 0, sizeof numbers[i]);
        memcpy(numbers[i], slot + 1, slot[0]);
    }
}

/* The trailer, the order of the index, and each position once. */
static void check_index(const uint8_t *file, size_t count, const uint8_t *which)
{
    const uint8_t *index = file + count * IMAGE_SIZE;
    uint8_t seen[DAY_MAX] = {0};
    uint8_t sum = 0;
    size_t i, k;

    for (i = 0; i < count; i++) {
        const uint8_t *entry = index + i * ENTRY_SIZE;
        size_t position = (size_t)entry[12] << 8 | entry[13];
        size_t length = strlen((const char *)numbers[which[position]]);
        CHECK(position < count && !seen[position]);
        seen[position] = 1;
        CHECK(memcmp(entry, numbers[which[position]], length) == 0);
        for (k = length; k < NUMBER_SIZE; k++)
            CHECK(entry[k] == ' ');
        CHECK(i == 0 || memcmp(entry - ENTRY_SIZE, entry, ENTRY_SIZE) < 0);
    }
    for (i = 0; i < count * ENTRY_SIZE; i++)
        sum ^= index[i];
    CHECK(index[count * ENTRY_SIZE + 6] == sum && index[count * ENTRY_SIZE + 7] == 1);
}

static void check_finds(const uint8_t *file, size_t length, size_t count, const uint8_t *which)
{
    size_t i, k;

    for (i = 0; i < CARDS; i += 1 + count / 20) {
        size_t size = strlen((const char *)numbers[i]);
        uint64_t found = second_day_find(file, length, numbers[i], size);
        for (k = 0; k < count && strcmp((const char *)numbers[which[k]], (const char *)numbers[i]) != 0; k++)
            continue;
        CHECK(found == (k < count ? (uint64_t)k << 40 : 44));
    }
    CHECK(second_day_image(file, length, count) == 44);
    CHECK(second_day_image(file, length, UINT64_MAX) == 44);
    for (i = 0; i < count; i += 1 + count / 10)
        CHECK(second_day_image(file, length, i) == (uint64_t)(i * IMAGE_SIZE) << 40);
}

/* Days that grow card by card are those built afresh. */
static void test_growth(size_t limit, size_t step)
{
    static uint8_t which[MANY];
    uint8_t *file = files[0], *next = files[1];
    size_t length = 8, count;

    CHECK(second_day_build(images, 0, file, 8) == UINT64_C(8) << 40);
    CHECK(memcmp(file, "\0\0\0\0\0\0\0\1", 8) == 0);
    for (count = 0; count < limit; count++) {
        uint8_t *swap = file;
        which[count] = (uint8_t)chance(CARDS);
        memcpy(images + count * IMAGE_SIZE, cards[which[count]], IMAGE_SIZE);
        memset(next, 0x77, sizeof files[1]);
        CHECK(second_day_add(file, length, cards[which[count]], IMAGE_SIZE, next, length + 270)
              == (uint64_t)(length + 270) << 40);
        CHECK(next[length + 270] == 0x77);
        length += 270;
        file = next;
        next = swap;
        if (count % step != 0)
            continue;
        CHECK(second_day_build(images, (count + 1) * IMAGE_SIZE, next, length + 1) == (uint64_t)length << 40);
        CHECK(memcmp(file, next, length) == 0);
        CHECK(second_day_count(file, length) == (uint64_t)(count + 1) << 40);
        check_index(file, count + 1, which);
        check_finds(file, length, count + 1, which);
    }
    if (limit == DAY_MAX) {
        CHECK(length == 54008);
        CHECK(second_day_add(file, length, cards[0], 3, next, 1) == 43);
    }
}

/* Any one bit of a day changed: in index and trailer 40, in an image 41, or none if it is another card of that number. */
static void test_damage(void)
{
    size_t length = (size_t)(second_day_build(images, 3 * IMAGE_SIZE, files[0], 1000) >> 40);
    size_t i;

    for (i = 0; i < length; i++) {
        uint64_t answer;
        files[0][i] ^= 0x10;
        answer = second_day_count(files[0], length) & 0xFF;
        if (i >= 3 * IMAGE_SIZE)
            CHECK(answer == 40);
        else if (i % 256 == 29 || (i % 256 >= 6 && i % 256 <= 16))
            CHECK(answer == 0);
        else
            CHECK(answer == 41 || (answer == 0 && i % 256 == 0));
        files[0][i] ^= 0x10;
    }
}

static void test_too_many(void)
{
    size_t i;

    for (i = 0; i < MANY; i++)
        memcpy(images + i * IMAGE_SIZE, cards[i % CARDS], IMAGE_SIZE);
    CHECK(second_day_build(images, (DAY_MAX + 1) * IMAGE_SIZE, files[0], 0) == 43);
    CHECK(second_day_build(images, DAY_MAX * IMAGE_SIZE, files[0], DAY_SIZE_MAX - 1) == 45);
    images[DAY_MAX * IMAGE_SIZE] = 0;
    CHECK(second_day_build(images, (DAY_MAX + 1) * IMAGE_SIZE, files[0], 0) == (41 | (uint64_t)DAY_MAX << 40));
    CHECK(second_day_build(images, (DAY_MAX + 1) * IMAGE_SIZE - 1, files[0], 0) == 40);
    CHECK(second_day_build(images, DAY_MAX * IMAGE_SIZE, files[0], DAY_SIZE_MAX) == (uint64_t)DAY_SIZE_MAX << 40);
    CHECK(second_day_count(files[0], DAY_SIZE_MAX) == (uint64_t)DAY_MAX << 40);
}

void test_days(void)
{
    static const uint8_t trailer[8] = {0, 0, 0, 0, 0, 0, 0, 1};
    uint8_t *exact = exact_copy(trailer, 8);
    size_t round;

    make_cards();
    CHECK(second_day_count(exact, 8) == 0 && second_day_count(exact + 1, 7) == 40 && second_day_count(exact, 0) == 40);
    CHECK(second_day_find(exact, 8, exact, 0) == 44);
    for (round = 0; round < 12; round++)
        test_growth(1 + chance(12), 1);
    test_growth(DAY_MAX, 50);
    test_damage();
    test_too_many();
    free(exact);
}
