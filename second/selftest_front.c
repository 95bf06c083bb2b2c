/* The printed front, against lines written by hand and against what must not show. */
#include <string.h>

#include "chance.h"
#include "draft.h"
#include "front.h"
#include "selftest.h"

static void check_lines(const uint8_t *record, uint64_t layout, const char *const *lines)
{
    uint8_t room[FRONT_SIZE];
    size_t i;

    memset(room, 0xA5, FRONT_SIZE);
    CHECK(second_front(record, RECORD_SIZE, layout, room, FRONT_SIZE) == 0);
    for (i = 0; i < LINE_COUNT; i++) {
        CHECK(strlen(lines[i]) == LINE_SIZE);
        CHECK(memcmp(room + i * LINE_SIZE, lines[i], LINE_SIZE) == 0);
    }
}

static void test_lines(void)
{
    static const char *const with[] = {
        "Dr. Ute von M}ller-L~d      ", "                            ", "AOK Musterstadt             ",
        "7654321100200300   3   10930"
    };
    static const char *const without[] = {
        "                            ", "Dr. Ute von M}ller-L~d      ", "                            ",
        "7654321100200300   3   10930"
    };
    static const char *const long_name[] = {
        "                            ", "Dr. Ute von                 ", "M}ller-L~denscheidt         ",
        "7654321123456789012" "3112" "9" "0930"
    };
    uint8_t record[RECORD_SIZE];

    record_full(record);
    check_lines(record, 1, with);
    check_lines(record, UINT64_C(1) << 32, with);
    check_lines(record, 0, without);
    set_text(record, ROW_87, "M}ller-L~denscheidt");
    set_text(record, ROW_82, "123456789012");
    set_text(record, ROW_83, "3112");
    set_text(record, ROW_90, "P");
    check_lines(record, 0, long_name);
}

/* Additions with the same printed sign give the same lines, others do not. */
static void test_signs(void)
{
    static const char groups[6][8] = {"1MAKEDS", "9XCLNFP", "4", "6", "7", "8"};
    uint8_t record[RECORD_SIZE], first[FRONT_SIZE], other[FRONT_SIZE];
    unsigned byte, taken = 0;
    size_t i, k;

    record_full(record);
    for (i = 0; i < 6; i++) {
        slot_of(record, ROW_90)[1] = (uint8_t)groups[i][0];
        CHECK(second_front(record, RECORD_SIZE, 0, first, FRONT_SIZE) == 0 && first[3 * 28 + 23] == groups[i][0]);
        for (k = 1; groups[i][k] != '\0'; k++) {
            slot_of(record, ROW_90)[1] = (uint8_t)groups[i][k];
            CHECK(second_front(record, RECORD_SIZE, 0, other, FRONT_SIZE) == 0);
            CHECK(memcmp(first, other, FRONT_SIZE) == 0);
        }
    }
    for (byte = 0; byte < 256; byte++) {
        uint64_t answer;
        slot_of(record, ROW_90)[1] = (uint8_t)byte;
        answer = second_front(record, RECORD_SIZE, 0, other, FRONT_SIZE);
        CHECK(answer == 0 || answer == told(30, 0, 0) || answer == told(9, 0, 0x90));
        taken += answer == 0;
    }
    CHECK(taken == 18);
}

/* Where the record is written under terminal, only 20 and 30 to 32 are left; the number does not matter. */
static void test_random_fronts(void)
{
    uint8_t table[TABLE_SIZE], record[RECORD_SIZE], room[FRONT_SIZE], other[FRONT_SIZE], image[IMAGE_SIZE];
    uint64_t answer, written;
    unsigned round;

    second_edition(EDITION_TERMINAL, table, TABLE_SIZE);
    for (round = 0; round < 3000; round++) {
        if (!chance_record_of(record, table, 66 + chance(150)))
            continue;
        if (chance(2))
            chance_fill(record, table, ROW_84 + chance(10), chance(29));
        written = second_write(table, TABLE_SIZE, record, RECORD_SIZE, image, IMAGE_SIZE);
        answer = second_front(record, RECORD_SIZE, round % 2, room, FRONT_SIZE);
        if (written != 0)
            CHECK(answer == written);
        else
            CHECK(answer == 0 || answer == 30 || answer == 31 || answer == 32);
        record[RECORD_NUMBER] = (uint8_t)chance(256);
        CHECK(second_front(record, RECORD_SIZE, round % 2, other, FRONT_SIZE) == answer);
        CHECK(answer != 0 || memcmp(room, other, FRONT_SIZE) == 0);
    }
}

void test_fronts(void)
{
    uint8_t record[RECORD_SIZE + 1] = {0}, room[FRONT_SIZE + 1] = {7};

    test_lines();
    test_signs();
    test_random_fronts();
    CHECK(second_front(record, RECORD_SIZE + 1, 0, room, 0) == told(20, 0, 0));
    CHECK(second_front(record, RECORD_SIZE, 0, room, 0) == told(3, 0, 0));
    record_full(record);
    CHECK(second_front(record, RECORD_SIZE, 0, room, FRONT_SIZE + 1) == told(20, 0, 0) && room[0] == 7);
    set_text(record, ROW_90, "Z");
    set_absent(record, ROW_8D);
    CHECK(second_front(record, RECORD_SIZE, 0, room, FRONT_SIZE) == told(30, 0, 0) && room[0] == 7);
    set_text(record, ROW_90, "A");
    CHECK(second_front(record, RECORD_SIZE, 0, room, FRONT_SIZE) == told(31, 0, 0));
    set_text(record, ROW_8D, "0125");
    set_text(record, ROW_80, "A_B");
    CHECK(second_front(record, RECORD_SIZE, 1, room, FRONT_SIZE) == told(32, 0, 0) && room[0] == 7);
    CHECK(second_front(record, RECORD_SIZE, 0, room, FRONT_SIZE) == 0);
}
