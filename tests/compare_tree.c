/* The tree of a foreign card: trees, damaged ones and short strings of few bytes; and writing back. */
#include "compare.h"

#include <string.h>

#include "chance.h"
#include "grow.h"
#include "kvk.h"

/* Most are small. */
static size_t any_tree(uint8_t *bytes)
{
    size_t room = chance(12) ? chance(80) : chance(chance(4) ? 600 : TREE_MAX + 1);

    return grow_tree(bytes, room);
}

static void set_words(struct bytes *room, size_t words)
{
    set_room(room, words * sizeof(uint16_t));
}

static size_t objects_in(const struct bytes *bytes)
{
    static uint16_t words[TREE_WORDS_MAX];
    uint64_t answer = second_tree(bytes->at, bytes->length, words, TREE_WORDS_MAX);

    return (answer & 0xFF) == 0 ? (size_t)(answer >> 40) : 3;
}

static void make_tree_call(struct call *call)
{
    struct bytes *bytes = &call->lent[0];
    size_t changes = chance(3);
    size_t words;

    if (chance(2)) {
        bytes->length = chance(4) ? any_tree(bytes->at) : grow_deep(bytes->at);
        for (; changes > 0; changes--)
            bytes->length = damage_tree(bytes->at, bytes->length);
    } else {
        bytes->length = chance(16);
        grow_weeds(bytes->at, bytes->length);
    }
    if (chance(256) == 0) {
        bytes->length = TREE_MAX - 2 + chance(5);
        grow_weeds(bytes->at, bytes->length);
    }
    words = TREE_ENTRY * objects_in(bytes);
    if (chance(4) == 0)
        words = words + chance(10) - (words < 5 ? 0 : 5);
    set_words(&call->room, words + chance(6));
}

/* A listing as it should be, with a word or more changed, or with words more or less. */
static void damage_listing(struct bytes *listing)
{
    uint16_t word;
    size_t count = listing->length / sizeof word;
    size_t at = count > 0 ? chance(count) * sizeof word : 0;

    if (count == 0)
        return;
    memcpy(&word, listing->at + at, sizeof word);
    switch (chance(7)) {
    case 0:
        word = (uint16_t)(word + 1);
        break;
    case 1:
        word = (uint16_t)(word - 1);
        break;
    case 2:
        word ^= (uint16_t)(1u << chance(16));
        break;
    case 3:
        word = (uint16_t)chance(65536);
        break;
    case 4:
        listing->length -= (1 + chance(count < 5 ? count : 5)) * sizeof word;
        return;
    case 5:
        random_bytes(listing->at + listing->length, 4 * sizeof word);
        listing->length += (1 + chance(4)) * sizeof word;
        return;
    default:
        word = (uint16_t)(word ^ 0x20);
    }
    memcpy(listing->at + at, &word, sizeof word);
}

static void make_write_call(struct call *call)
{
    static uint16_t words[TREE_WORDS_MAX];
    static uint8_t bytes[TREE_MAX];
    struct bytes *listing = &call->lent[0], *values = &call->lent[1];
    size_t length = any_tree(bytes);
    size_t objects = (size_t)(second_tree(bytes, length, words, TREE_WORDS_MAX) >> 40);
    size_t room = length;

    set_bytes(listing, (const uint8_t *)words, objects * TREE_ENTRY * sizeof words[0]);
    values->length = plain_values(bytes, words, objects, values->at);
    while (chance(2) == 0)
        damage_listing(listing);
    if (chance(8) == 0) {
        values->length += chance(3);
        values->length -= values->length > 0;
    }
    if (chance(4) == 0)
        room = room + chance(8) - (room < 4 ? 0 : 4);
    set_room(&call->room, room + chance(3));
}

/* As many objects as there may be, one less and one more, each of two bytes. */
static size_t count_writings(void)
{
    return 3;
}

static void make_fixed_writing(struct call *call, size_t which)
{
    static uint16_t words[TREE_WORDS_MAX + TREE_ENTRY];
    size_t objects = TREE_MAX / 2 - 1 + which;
    size_t i;

    for (i = 0; i < objects; i++) {
        words[TREE_ENTRY * i] = 0x01;
        words[TREE_ENTRY * i + 1] = 1;
        words[TREE_ENTRY * i + 2] = (uint16_t)(2 * i);
        words[TREE_ENTRY * i + 3] = 0;
    }
    set_bytes(&call->lent[0], (const uint8_t *)words, objects * TREE_ENTRY * sizeof words[0]);
    call->lent[1].length = 0;
    set_room(&call->room, TREE_MAX);
}

static uint64_t library_tree(const struct lent *lent)
{
    return kvk_tree(lent->at[0], lent->length[0], (uint16_t *)(void *)lent->room, lent->room_length / sizeof(uint16_t));
}

static uint64_t tree_by_second(const struct lent *lent)
{
    return second_tree(lent->at[0], lent->length[0],
                       (uint16_t *)(void *)lent->room, lent->room_length / sizeof(uint16_t));
}

static uint64_t library_tree_write(const struct lent *lent)
{
    return kvk_tree_write((const uint16_t *)(const void *)lent->at[0], lent->length[0] / sizeof(uint16_t),
                          lent->at[1], lent->length[1], lent->room, lent->room_length);
}

static uint64_t tree_written_by_second(const struct lent *lent)
{
    return second_tree_write((const uint16_t *)(const void *)lent->at[0], lent->length[0] / sizeof(uint16_t),
                             lent->at[1], lent->length[1], lent->room, lent->room_length);
}

const struct comparison trees = {
    "tree", {{"bytes", 1}, {NULL, 0}}, sizeof(uint16_t), 3, library_tree, tree_by_second, make_tree_call,
    NULL, NULL, NULL
};
const struct comparison tree_writings = {
    "tree write", {{"listing", sizeof(uint16_t)}, {"values", 1}, {NULL, 0}}, 1, 2, library_tree_write,
    tree_written_by_second, make_write_call, NULL, count_writings, make_fixed_writing
};
