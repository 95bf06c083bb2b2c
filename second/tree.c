/* Written from the documents alone, without a look at the library. */
#include "tree.h"

#include <string.h>

#include "length.h"

enum { LIST_BIT = 0x20, LOW_BITS = 0x1F };

/* A walk over the objects in order of address. ends[d] is where the list on level d ends. */
struct walk {
    const uint8_t *bytes;
    size_t at;
    size_t depth;
    size_t ends[TREE_DEPTH + 2];
};

struct object {
    size_t address;
    size_t depth;
    size_t value;
    size_t length;
};

static uint64_t at_place(unsigned number, size_t place)
{
    return (uint64_t)number | (uint64_t)place << 40;
}

static int is_list(uint8_t tag)
{
    return (tag & LIST_BIT) != 0;
}

static void start_walk(struct walk *walk, const uint8_t *bytes, size_t length)
{
    walk->bytes = bytes;
    walk->at = 0;
    walk->depth = 1;
    walk->ends[1] = length;
}

/* Whether an object follows; goes up from lists that are through. */
static int goes_on(struct walk *walk)
{
    while (walk->depth > 1 && walk->at == walk->ends[walk->depth])
        walk->depth--;
    return walk->at < walk->ends[walk->depth];
}

/* The object at walk->at, and on to what follows its header, if it is a list, or its value. */
static uint64_t next_object(struct walk *walk, struct object *object)
{
    size_t address = walk->at;
    size_t end = walk->ends[walk->depth];
    uint8_t tag = walk->bytes[address];
    uint64_t field;

    if (tag == 0x00 || (tag & LOW_BITS) == LOW_BITS)
        return at_place(50, address);
    if (walk->depth > TREE_DEPTH)
        return at_place(53, address);
    field = second_length(walk->bytes + address + 1, end - address - 1);
    if ((field & 0xFF) != 0)
        return at_place(51, address + 1);
    object->address = address;
    object->depth = walk->depth;
    object->value = address + 1 + (size_t)(field >> 56);
    object->length = (size_t)(field >> 40 & 0xFFFF);
    if (object->value + object->length > end)
        return at_place(52, address);
    walk->at = object->value;
    if (is_list(tag))
        walk->ends[++walk->depth] = object->value + object->length;
    else
        walk->at += object->length;
    return 0;
}

/* Counts the objects, and lists them if there is a room. */
static uint64_t list_objects(const uint8_t *bytes, size_t length, uint16_t *room)
{
    struct walk walk;
    struct object object;
    uint64_t count = 0;

    start_walk(&walk, bytes, length);
    while (goes_on(&walk)) {
        uint64_t answer = next_object(&walk, &object);
        if (answer != 0)
            return answer;
        if (room != NULL) {
            room[TREE_ENTRY * count] = bytes[object.address];
            room[TREE_ENTRY * count + 1] = (uint16_t)object.depth;
            room[TREE_ENTRY * count + 2] = (uint16_t)object.address;
            room[TREE_ENTRY * count + 3] = (uint16_t)object.length;
        }
        count++;
    }
    return count << 40;
}

uint64_t second_tree(const uint8_t *bytes, size_t bytes_len, uint16_t *room, size_t room_len)
{
    uint64_t answer;

    if (bytes_len > TREE_MAX)
        return 54;
    answer = list_objects(bytes, bytes_len, NULL);
    if ((answer & 0xFF) != 0)
        return answer;
    if (room_len / TREE_ENTRY < answer >> 40)
        return 55;
    return list_objects(bytes, bytes_len, room);
}

/* Writing back */

static size_t put_header(uint8_t *bytes, uint8_t tag, size_t length)
{
    size_t at = 0;

    bytes[at++] = tag;
    if (length > 255)
        bytes[at++] = 0x82;
    else if (length > 127)
        bytes[at++] = 0x81;
    if (length > 255)
        bytes[at++] = (uint8_t)(length >> 8);
    bytes[at++] = (uint8_t)length;
    return at;
}

/* Puts every header and plain value where the listing has it; answers the end of what was put, or 0 with nothing to
   put, or more than TREE_MAX if something does not fit. The bytes have room for a header behind TREE_MAX. */
static size_t lay_out(const uint16_t *listing, size_t count, const uint8_t *values, size_t values_len, uint8_t *bytes)
{
    size_t end = 0, used = 0;
    size_t i, value;

    for (i = 0; i < count; i++, listing += TREE_ENTRY) {
        size_t length = listing[3];
        if (listing[0] > 255 || listing[2] >= TREE_MAX)
            return TREE_MAX + 1;
        value = listing[2] + put_header(bytes + listing[2], (uint8_t)listing[0], length);
        if (value + length > TREE_MAX)
            return TREE_MAX + 1;
        if (!is_list((uint8_t)listing[0])) {
            if (length > values_len - used)
                return TREE_MAX + 1;
            memcpy(bytes + value, values + used, length);
            used += length;
        }
        end = value + length > end ? value + length : end;
    }
    return used == values_len ? end : TREE_MAX + 1;
}

/* Whether the values of the plain objects are these. */
static int values_are(const uint8_t *bytes, size_t length, const uint8_t *values)
{
    struct walk walk;
    struct object object;

    start_walk(&walk, bytes, length);
    while (goes_on(&walk)) {
        next_object(&walk, &object);
        if (is_list(bytes[object.address]))
            continue;
        if (memcmp(bytes + object.value, values, object.length) != 0)
            return 0;
        values += object.length;
    }
    return 1;
}

/* Where bytes with this listing and these values are at all, they are those laid out. */
uint64_t second_tree_write(const uint16_t *listing, size_t listing_len, const uint8_t *values, size_t values_len,
                           uint8_t *room, size_t room_len)
{
    static uint16_t again[TREE_WORDS_MAX];
    uint8_t bytes[TREE_MAX + 8] = {0};
    size_t count = listing_len / TREE_ENTRY;
    size_t length;

    if (listing_len % TREE_ENTRY != 0 || listing_len > TREE_WORDS_MAX)
        return 56;
    length = lay_out(listing, count, values, values_len, bytes);
    if (length > TREE_MAX || second_tree(bytes, length, again, TREE_WORDS_MAX) != (uint64_t)count << 40)
        return 56;
    if (memcmp(again, listing, listing_len * sizeof again[0]) != 0 || !values_are(bytes, length, values))
        return 56;
    if (room_len < length)
        return 55;
    memcpy(room, bytes, length);
    return (uint64_t)length << 40;
}
