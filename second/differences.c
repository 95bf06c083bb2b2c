/* Written from the documents alone, without a look at the library. */
#include "differences.h"

#include <string.h>

static uint32_t difference(unsigned kind, unsigned tag, size_t place)
{
    return (uint32_t)kind << 16 | (uint32_t)tag << 8 | (uint32_t)place;
}

/* 0 if the two slots hold the same. */
static uint32_t compare_slots(unsigned tag, const uint8_t *first, const uint8_t *second)
{
    size_t index = 0;

    if (first[0] == 0 && second[0] == 0)
        return 0;
    if (first[0] == 0)
        return difference(ABSENT_IN_FIRST, tag, 0);
    if (second[0] == 0)
        return difference(ABSENT_IN_SECOND, tag, 0);
    if (first[0] != second[0])
        return difference(LENGTHS_DIFFER, tag, 0);
    while (index < first[0] && first[1 + index] == second[1 + index])
        index++;
    return index == first[0] ? 0 : difference(INDEX_DIFFERS, tag, index);
}

static size_t list_objects(const uint8_t *first, const uint8_t *second, uint32_t *room)
{
    size_t count = 0;
    size_t row;

    for (row = 0; row < OBJECT_COUNT; row++) {
        size_t at = RECORD_SLOTS + row * SLOT_SIZE;
        uint32_t found = compare_slots(second_tags[row], first + at, second + at);
        if (found != 0)
            room[count++] = found;
    }
    return count;
}

/* Address 0, the free bytes and the last one. */
static size_t list_addresses(const uint8_t *first, const uint8_t *second, uint32_t *room)
{
    static const uint8_t addresses[] = {0, 6, 7, 8, 9, 10, 11, 12, 13, 14, 15, 16, 29, 255};
    size_t count = 0;
    size_t i;

    for (i = 0; i < sizeof addresses; i++) {
        if (first[addresses[i]] != second[addresses[i]])
            room[count++] = difference(ADDRESS_DIFFERS, 0, addresses[i]);
    }
    return count;
}

uint64_t second_differences(const uint8_t *edition, size_t edition_len,
                            const uint8_t *first, size_t first_len,
                            const uint8_t *second, size_t second_len,
                            uint32_t *room, size_t room_len)
{
    uint8_t records[2][RECORD_SIZE];
    uint64_t answer;
    size_t count;

    if (room_len != DIFFERENCE_COUNT)
        return 20;
    memset(room, 0, DIFFERENCE_COUNT * sizeof room[0]);
    answer = second_read(edition, edition_len, first, first_len, records[0], RECORD_SIZE);
    if (answer == 0)
        answer = second_read(edition, edition_len, second, second_len, records[1], RECORD_SIZE);
    if (answer != 0)
        return answer;
    count = list_objects(records[0], records[1], room);
    count += list_addresses(first, second, room + count);
    return (uint64_t)count << 40;
}
