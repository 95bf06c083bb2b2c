/* Trees: a second reader that goes down by calls, all short strings, and writing back. */
#include <stdlib.h>
#include <string.h>

#include "chance.h"
#include "grow.h"
#include "length.h"
#include "selftest.h"

static uint16_t words[TREE_WORDS_MAX + TREE_ENTRY];
static uint8_t values[TREE_MAX], back[TREE_MAX + 1];

/* All refusals that there are in these bytes, the lowest place kept; of one place 51 first, then 50, 53, 52. */
struct finding {
    size_t place;
    unsigned number;
    size_t objects;
};

static void find(struct finding *finding, unsigned number, size_t place)
{
    static const uint8_t ranks[4] = {1, 0, 3, 2};

    if (place < finding->place || (place == finding->place && ranks[number - 50] < ranks[finding->number - 50])) {
        finding->place = place;
        finding->number = number;
    }
}

/* Goes on behind an object as far as its length is known. */
static void look_through(const uint8_t *bytes, size_t at, size_t end, unsigned depth, struct finding *finding)
{
    while (at < end) {
        uint64_t field = second_length(bytes + at + 1, end - at - 1);
        size_t value = at + 1 + (size_t)(field >> 56);
        size_t length = (size_t)(field >> 40 & 0xFFFF);
        finding->objects++;
        if (bytes[at] == 0 || (bytes[at] & 0x1F) == 0x1F)
            find(finding, 50, at);
        if (depth > 6)
            find(finding, 53, at);
        if ((field & 0xFF) != 0) {
            find(finding, 51, at + 1);
            return;
        }
        if (value + length > end) {
            find(finding, 52, at);
            return;
        }
        if ((bytes[at] & 0x20) != 0)
            look_through(bytes, value, value + length, depth + 1, finding);
        at = value + length;
    }
}

static uint64_t expected(const uint8_t *bytes, size_t length)
{
    struct finding finding = {SIZE_MAX, 50, 0};

    look_through(bytes, 0, length, 1, &finding);
    if (finding.place == SIZE_MAX)
        return (uint64_t)finding.objects << 40;
    return (uint64_t)finding.number | (uint64_t)finding.place << 40;
}

/* Outer before inner, each within the one that it stands in, and every byte of the bytes in one object. */
static void check_listing(const uint8_t *bytes, size_t length, size_t count)
{
    size_t value_bytes = plain_values(bytes, words, count, values);
    size_t covered = 0;
    size_t i;

    for (i = 0; i < count; i++) {
        const uint16_t *entry = words + TREE_ENTRY * i;
        CHECK(entry[2] == covered && entry[0] == bytes[covered]);
        CHECK(entry[1] >= 1 && entry[1] <= TREE_DEPTH);
        CHECK(i == 0 ? entry[1] == 1 : entry[1] <= entry[1 - TREE_ENTRY] + 1);
        covered += entry[3] > 255 ? 4 : entry[3] > 127 ? 3 : 2;
        covered += (entry[0] & 0x20) != 0 ? 0u : entry[3];
    }
    CHECK(covered == length);
    memset(back, 0x77, sizeof back);
    CHECK(second_tree_write(words, TREE_ENTRY * count, values, value_bytes, back, length) == (uint64_t)length << 40);
    CHECK(memcmp(back, bytes, length) == 0 && back[length] == 0x77);
    CHECK(length == 0 || second_tree_write(words, TREE_ENTRY * count, values, value_bytes, back, length - 1) == 55);
    CHECK(second_tree_write(words, TREE_ENTRY * count + 1, values, value_bytes, back, length) == 56);
}

static void check_string(const uint8_t *bytes, size_t length)
{
    uint8_t *own = exact_copy(bytes, length);
    uint64_t answer = second_tree(own, length, words, TREE_WORDS_MAX);

    CHECK(answer == expected(bytes, length));
    if ((answer & 0xFF) == 0)
        check_listing(bytes, length, (size_t)(answer >> 40));
    free(own);
}

/* Every string of at most six bytes over a small alphabet. */
static void test_short_strings(const uint8_t *alphabet, size_t size, size_t longest)
{
    uint8_t bytes[8];
    size_t length, code, count = 1, i;

    for (length = 0; length <= longest; length++, count *= size) {
        for (code = 0; code < count; code++) {
            size_t rest = code;
            for (i = 0; i < length; i++, rest /= size)
                bytes[i] = alphabet[rest % size];
            check_string(bytes, length);
        }
    }
}

/* A listing with one word changed is either none, or that of the bytes that it gives. */
static void test_changed_listing(const uint8_t *bytes, size_t length)
{
    static uint16_t changed[TREE_WORDS_MAX], again[TREE_WORDS_MAX];
    size_t count = (size_t)(second_tree(bytes, length, words, TREE_WORDS_MAX) >> 40) * TREE_ENTRY;
    size_t value_bytes = plain_values(bytes, words, count / TREE_ENTRY, values);
    uint64_t answer;

    if (count == 0)
        return;
    memcpy(changed, words, count * sizeof words[0]);
    changed[chance(count)] ^= (uint16_t)(1u << chance(chance(2) ? 5 : 16));
    answer = second_tree_write(changed, count, values, value_bytes, back, TREE_MAX);
    if (answer == 56)
        return;
    CHECK((answer & 0xFF) == 0);
    CHECK(second_tree(back, (size_t)(answer >> 40), again, TREE_WORDS_MAX) == (uint64_t)(count / TREE_ENTRY) << 40);
    CHECK(memcmp(again, changed, count * sizeof again[0]) == 0);
}

static void test_random(unsigned rounds)
{
    static uint8_t bytes[TREE_MAX];
    unsigned round;

    for (round = 0; round < rounds; round++) {
        size_t length = grow_tree(bytes, chance(chance(16) ? 100 : TREE_MAX + 1));
        check_string(bytes, length);
        test_changed_listing(bytes, length);
        length = damage_tree(bytes, length);
        check_string(bytes, length);
        if (chance(2))
            length = damage_tree(bytes, length);
        check_string(bytes, length);
        length = chance(14);
        grow_weeds(bytes, length);
        check_string(bytes, length);
        length = grow_deep(bytes);
        check_string(bytes, length);
        length = damage_tree(bytes, length);
        check_string(bytes, length);
    }
}

void test_trees(void)
{
    static const uint8_t five[] = {0x00, 0x01, 0x02, 0x20, 0x81};
    static const uint8_t three[] = {0x20, 0x02, 0x1F};
    static uint8_t bytes[TREE_MAX + 1];

    test_short_strings(five, 5, 6);
    test_short_strings(three, 3, 8);
    test_random(4000);
    CHECK(second_tree(bytes, TREE_MAX + 1, words, 0) == 54);
    CHECK(second_tree(bytes, TREE_MAX, words, 0) == 50);
    memset(bytes, 0x01, 1);
    words[0] = 7;
    CHECK(second_tree(bytes, 2, words, 3) == 55 && words[0] == 7);
    CHECK(second_tree(bytes, 2, words, 7) == UINT64_C(1) << 40 && words[0] == 1);
}
