/* Written from the documents alone, without a look at the library. */
#include "places.h"

#include <string.h>

enum { TEMPLATE = 30, CHECKSUM_TAG = 0x8E };

static size_t first_object(const uint8_t *image)
{
    return image[TEMPLATE + 1] == 0x81 ? TEMPLATE + 3 : TEMPLATE + 2;
}

static size_t row_of(uint8_t tag)
{
    size_t row = 0;

    while (second_tags[row] != tag)
        row++;
    return row;
}

/* Over the objects of an accepted image, up to the checksum's tag. */
static void find_places(const uint8_t *image, uint8_t *room)
{
    size_t at = first_object(image);

    while (image[at] != CHECKSUM_TAG) {
        uint8_t *place = room + 2 * row_of(image[at]);
        place[0] = (uint8_t)(at + 2);
        place[1] = image[at + 1];
        at += 2u + image[at + 1];
    }
}

uint64_t second_places(const uint8_t *edition, size_t edition_len,
                       const uint8_t *image, size_t image_len,
                       uint8_t *room, size_t room_len)
{
    uint8_t record[RECORD_SIZE];
    uint64_t answer;

    if (room_len != PLACES_SIZE)
        return 20;
    memset(room, 0, PLACES_SIZE);
    answer = second_read(edition, edition_len, image, image_len, record, RECORD_SIZE);
    if (answer == 0)
        find_places(image, room);
    return answer;
}

/* From '60' to the checksum's value, of an accepted image. */
static size_t template_size(const uint8_t *image)
{
    size_t at = first_object(image);

    while (image[at] != CHECKSUM_TAG)
        at += 2u + image[at + 1];
    return at + 3 - TEMPLATE;
}

/* Two bytes; answers how many. */
static size_t put_status(uint8_t *room, unsigned status)
{
    room[0] = (uint8_t)(status >> 8);
    room[1] = (uint8_t)status;
    return 2;
}

static size_t put_range(const uint8_t *image, const uint8_t *command, uint8_t *room)
{
    size_t offset = (size_t)command[2] << 8 | command[3];
    size_t count = command[4];

    if (offset + count > template_size(image))
        return put_status(room, 0x6A00);
    memcpy(room, image + TEMPLATE + offset, count);
    return count + put_status(room + count, 0x9000);
}

uint64_t second_host(const uint8_t *edition, size_t edition_len,
                     const uint8_t *image, size_t image_len,
                     const uint8_t *command, size_t command_len,
                     uint8_t *room, size_t room_len)
{
    uint8_t record[RECORD_SIZE];
    size_t count;

    if (room_len != HOST_SIZE)
        return 20;
    if (command_len != 5 || command[4] == 0)
        count = put_status(room, 0x6700);
    else if (command[0] != 0x00 || command[1] != 0xB0)
        count = put_status(room, 0x6D00);
    else if (second_read(edition, edition_len, image, image_len, record, RECORD_SIZE) != 0)
        count = put_status(room, 0x6900);
    else
        count = put_range(image, command, room);
    return (uint64_t)count << 40;
}
