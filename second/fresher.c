/* Written from the documents alone, without a look at the library. */
#include "fresher.h"

#include <string.h>

#include "places.h"

/* Months since the year 0 of the two digits; value is a validity that the rule takes. */
static int32_t months_of(const uint8_t *value)
{
    int32_t month = (value[0] - 0x30) * 10 + (value[1] - 0x30);
    int32_t year = (value[2] - 0x30) * 10 + (value[3] - 0x30);

    return year * 12 + month;
}

static void put_months(uint8_t *room, int32_t months)
{
    uint32_t bits = (uint32_t)months;

    room[0] = (uint8_t)(bits >> 24);
    room[1] = (uint8_t)(bits >> 16);
    room[2] = (uint8_t)(bits >> 8);
    room[3] = (uint8_t)bits;
}

uint64_t second_fresher(const uint8_t *edition, size_t edition_len,
                        const uint8_t *first, size_t first_len,
                        const uint8_t *second, size_t second_len,
                        uint8_t *room, size_t room_len)
{
    uint8_t places[2][PLACES_SIZE];
    uint64_t answer;
    int32_t months;
    size_t later;

    if (room_len != FRESHER_SIZE)
        return 20;
    memset(room, 0, FRESHER_SIZE);
    room[0] = 1;
    answer = second_places(edition, edition_len, first, first_len, places[0], PLACES_SIZE);
    if (answer == 0)
        answer = second_places(edition, edition_len, second, second_len, places[1], PLACES_SIZE);
    if (answer != 0)
        return answer;
    if (edition[ROW_8D * ROW_SIZE + 1] != RULE_EXPIRY || places[0][2 * ROW_8D + 1] == 0
        || places[1][2 * ROW_8D + 1] == 0)
        return 24;
    months = months_of(second + places[1][2 * ROW_8D]) - months_of(first + places[0][2 * ROW_8D]);
    later = months > 0;
    room[0] = (uint8_t)(later + 1);
    memcpy(room + 1, places[later] + 2 * ROW_87, 2);
    put_months(room + 4, months);
    return 0;
}
