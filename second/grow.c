/* Written from the documents alone, without a look at the library. */
#include "grow.h"

#include <string.h>

#include "chance.h"

#define COUNT(list) (sizeof(list) / sizeof((list)[0]))

/* Where room is for it: a length about the edges of the forms, or a small one. */
static size_t any_length(size_t room)
{
    static const uint16_t lengths[] = {0, 1, 126, 127, 128, 129, 254, 255, 256, 257, 1000, 4092};
    size_t length = chance(4) ? chance(6) : lengths[chance(COUNT(lengths))];

    return length <= room ? length : chance(room + 1);
}

static uint8_t any_tag(int list)
{
    uint8_t tag;

    do
        tag = (uint8_t)(list ? chance(256) | 0x20 : chance(256) & 0xDF);
    while (tag == 0x00 || (tag & 0x1F) == 0x1F);
    return tag;
}

/* Tag and length; answers how many bytes. */
static size_t put_header(uint8_t *bytes, uint8_t tag, size_t length)
{
    bytes[0] = tag;
    bytes[1] = (uint8_t)length;
    if (length < 128)
        return 2;
    bytes[1] = 0x81;
    bytes[2] = (uint8_t)length;
    if (length < 256)
        return 3;
    bytes[1] = 0x82;
    bytes[2] = (uint8_t)(length >> 8);
    bytes[3] = (uint8_t)length;
    return 4;
}

/* Objects side by side on this level. */
static size_t grow_level(uint8_t *bytes, size_t room, unsigned depth)
{
    uint8_t content[TREE_MAX];
    size_t at = 0;

    while (depth <= TREE_DEPTH && at + 4 <= room && chance(8) != 0) {
        int list = chance(2) != 0;
        size_t left = room - at - 4;
        size_t length, i;
        if (list) {
            length = grow_level(content, left, depth + 1);
        } else {
            length = any_length(left);
            for (i = 0; i < length; i++)
                content[i] = (uint8_t)chance(256);
        }
        at += put_header(bytes + at, any_tag(list), length);
        memcpy(bytes + at, content, length);
        at += length;
    }
    return at;
}

size_t grow_tree(uint8_t *bytes, size_t room)
{
    return grow_level(bytes, room, 1);
}

static uint8_t telling_byte(void)
{
    static const uint8_t bytes[] = {
        0x00, 0x01, 0x02, 0x04, 0x1E, 0x1F, 0x20, 0x21, 0x3F, 0x60, 0x7F, 0x80, 0x81, 0x82, 0x83, 0x9F, 0xA0, 0xFF
    };

    return chance(4) ? bytes[chance(COUNT(bytes))] : (uint8_t)chance(256);
}

void grow_weeds(uint8_t *bytes, size_t length)
{
    size_t kinds = 1 + chance(6);
    uint8_t alphabet[6];
    size_t i;

    for (i = 0; i < kinds; i++)
        alphabet[i] = telling_byte();
    for (i = 0; i < length; i++)
        bytes[i] = alphabet[chance(kinds)];
}

size_t grow_deep(uint8_t *bytes)
{
    size_t levels = 4 + chance(4);
    size_t length = chance(7);
    size_t i;

    if (chance(2))
        length = grow_level(bytes + 2 * levels, 16, TREE_DEPTH - 1);
    else
        grow_weeds(bytes + 2 * levels, length);
    for (i = 0; i < levels; i++) {
        bytes[2 * i] = any_tag(1);
        bytes[2 * i + 1] = (uint8_t)(length + 2 * (levels - i - 1));
    }
    return length + 2 * levels;
}

size_t damage_tree(uint8_t *bytes, size_t length)
{
    size_t at = length > 0 ? chance(chance(2) && length > 12 ? 12 : length) : 0;

    switch (length == 0 ? 4 : chance(6)) {
    case 0:
        bytes[at] = telling_byte();
        return length;
    case 1:
        bytes[at] = (uint8_t)(bytes[at] + (chance(2) ? 1 : 255));
        return length;
    case 2:
        bytes[at] ^= (uint8_t)(1u << chance(8));
        return length;
    case 3:
        memmove(bytes + at, bytes + at + 1, length - at - 1);
        return length - 1;
    case 4:
        if (length == TREE_MAX)
            return length;
        memmove(bytes + at + 1, bytes + at, length - at);
        bytes[at] = telling_byte();
        return length + 1;
    default:
        return chance(length + 1);
    }
}

size_t plain_values(const uint8_t *bytes, const uint16_t *listing, size_t count, uint8_t *values)
{
    size_t used = 0;
    size_t i;

    for (i = 0; i < count; i++, listing += TREE_ENTRY) {
        size_t header = listing[3] > 255 ? 4 : listing[3] > 127 ? 3 : 2;
        if ((listing[0] & 0x20) != 0)
            continue;
        memcpy(values + used, bytes + listing[2] + header, listing[3]);
        used += listing[3];
    }
    return used;
}
