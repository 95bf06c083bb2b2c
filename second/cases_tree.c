/* The tree of a foreign card.
   Written from the documents alone, without a look at the library. */
#include <string.h>

#include "answers.h"
#include "cases.h"
#include "chance.h"
#include "grow.h"
#include "list.h"

#define COUNT(list) (sizeof(list) / sizeof((list)[0]))

/* Answers */

uint64_t answer_tree(const struct test_case *test_case, FILE *out)
{
    static uint16_t room[LONG_MAX];
    uint16_t fill = (uint16_t)(test_case->fill * 257u);
    size_t length = test_case->numbers[0];
    size_t i, words;
    unsigned changed = 0;
    uint64_t answer;

    for (i = 0; i < LONG_MAX; i++)
        room[i] = fill;
    answer = second_tree(test_case->spans[0].bytes, test_case->spans[0].length, room, length);
    words = (answer & 0xFF) == 0 ? TREE_ENTRY * (size_t)(answer >> 40) : 0;
    for (i = words; i < length; i++)
        changed += room[i] != fill;
    print_answer(out, answer);
    fprintf(out, " %u ", (unsigned)(answer >> 40));
    for (i = 0; i < words; i++)
        fprintf(out, "%04X", (unsigned)room[i]);
    fprintf(out, "%s %u", words == 0 ? "=" : "", changed);
    return answer;
}

uint64_t answer_tree_write(const struct test_case *test_case, FILE *out)
{
    static uint16_t listing[LONG_MAX / 2];
    const struct span *words = &test_case->spans[0], *values = &test_case->spans[1];
    uint8_t room[LONG_MAX];
    uint64_t answer;
    size_t i;

    for (i = 0; i < words->length / 2; i++)
        listing[i] = (uint16_t)(words->bytes[2 * i] << 8 | words->bytes[2 * i + 1]);
    memset(room, test_case->fill, LONG_MAX);
    answer = second_tree_write(listing, words->length / 2, values->bytes, values->length, room, test_case->numbers[0]);
    print_answer(out, answer);
    putc(' ', out);
    print_filled(out, room, (size_t)(answer >> 40), test_case->numbers[0], test_case->fill);
    return answer;
}

/* Listing */

static void emit_tree(const uint8_t *bytes, size_t length, size_t room)
{
    struct test_case *test_case = new_case('G');

    set_span(&test_case->spans[0], bytes, length);
    test_case->numbers[0] = room;
    test_case->fill = chance_room_byte();
    put_case(stdout, test_case);
}

/* Every string of at most three of these bytes. */
static void short_strings(void)
{
    static const uint8_t alphabet[] = {0x00, 0x01, 0x20, 0x81};
    uint8_t bytes[3];
    size_t length, code, count = 1, i;

    for (length = 0; length <= 3; length++, count *= COUNT(alphabet)) {
        for (code = 0; code < count; code++) {
            size_t rest = code;
            for (i = 0; i < length; i++, rest /= COUNT(alphabet))
                bytes[i] = alphabet[rest % COUNT(alphabet)];
            emit_tree(bytes, length, 12);
        }
    }
}

struct text {
    size_t length;
    uint8_t bytes[24];
};

/* Tags, lengths, levels, and the order of refusals at one place. */
static void telling_strings(void)
{
    static const struct text texts[] = {
        {5, {0x20, 0x01, 0x81, 0x00, 0x00}}, {4, {0x20, 0x01, 0x04, 0x00}}, {3, {0x20, 0x01, 0x04}},
        {4, {0x20, 0x02, 0x04, 0x01}}, {5, {0x20, 0x02, 0x04, 0x01, 0x77}}, {5, {0x20, 0x03, 0x04, 0x01, 0x77}},
        {5, {0x20, 0x03, 0x04, 0x02, 0x77}}, {4, {0x20, 0x03, 0x04, 0x00}}, {2, {0x1F, 0x00}}, {2, {0x3F, 0x00}},
        {2, {0x5F, 0x00}}, {2, {0xFF, 0x00}}, {2, {0x1E, 0x00}}, {2, {0xDE, 0x00}}, {2, {0xE0, 0x00}}, {2, {0x40, 0x00}},
        {2, {0x80, 0x00}}, {2, {0x01, 0x80}}, {2, {0x01, 0x83}}, {2, {0x01, 0xFF}}, {3, {0x01, 0x81, 0x7F}},
        {3, {0x01, 0x81, 0x80}}, {4, {0x01, 0x82, 0x00, 0x80}}, {4, {0x01, 0x82, 0x01, 0x00}}, {3, {0x01, 0x82, 0x01}},
        {2, {0x01, 0x82}}, {6, {0x20, 0x02, 0x04, 0x82, 0x01, 0x00}}, {6, {0x20, 0x03, 0x04, 0x81, 0x80, 0x00}},
        {4, {0x01, 0x00, 0x00, 0x00}}, {4, {0x01, 0x00, 0x1F, 0x00}}, {4, {0x01, 0x00, 0x02, 0x01}},
        {6, {0x01, 0x00, 0x02, 0x01, 0x55, 0x03}}, {7, {0x20, 0x05, 0x20, 0x05, 0x01, 0x01, 0x00}},
        {7, {0x20, 0x05, 0x20, 0x03, 0x01, 0x01, 0x00}}, {7, {0x20, 0x05, 0x20, 0x03, 0x01, 0x02, 0x00}},
        {8, {0x20, 0x02, 0x01, 0x00, 0x20, 0x02, 0x01, 0x00}}, {8, {0x30, 0x06, 0x02, 0x01, 0x05, 0x04, 0x01, 0x20}},
        {12, {0x20, 10, 0x20, 8, 0x20, 6, 0x20, 4, 0x20, 2, 0x20, 0}},
        {14, {0x20, 12, 0x20, 10, 0x20, 8, 0x20, 6, 0x20, 4, 0x20, 2, 0x20, 0}},
        {14, {0x20, 12, 0x20, 10, 0x20, 8, 0x20, 6, 0x20, 4, 0x20, 2, 0x01, 0}},
        {14, {0x20, 12, 0x20, 10, 0x20, 8, 0x20, 6, 0x20, 4, 0x20, 2, 0x00, 0}},
        {14, {0x20, 12, 0x20, 10, 0x20, 8, 0x20, 6, 0x20, 4, 0x20, 2, 0x1F, 9}},
        {14, {0x20, 12, 0x20, 10, 0x20, 8, 0x20, 6, 0x20, 4, 0x20, 2, 0x01, 9}},
        {13, {0x20, 11, 0x20, 9, 0x20, 7, 0x20, 5, 0x20, 3, 0x20, 1, 0x01}},
        {14, {0x20, 12, 0x20, 10, 0x20, 8, 0x20, 6, 0x20, 4, 0x20, 1, 0x01, 0x00}},
        {14, {0x20, 12, 0x20, 10, 0x20, 8, 0x20, 6, 0x20, 4, 0x01, 2, 0x20, 0x00}},
        {14, {0x20, 11, 0x20, 10, 0x20, 8, 0x20, 6, 0x20, 4, 0x20, 2, 0x01, 0}},
        {16, {0x20, 12, 0x20, 10, 0x20, 8, 0x20, 6, 0x20, 4, 0x20, 0, 0x01, 0, 0x02, 0}}
    };
    size_t i;

    for (i = 0; i < COUNT(texts); i++) {
        emit_tree(texts[i].bytes, texts[i].length, 40);
        if (i % 5 == 0)
            emit_tree(texts[i].bytes, texts[i].length, 3);
    }
}

/* One object of every form, whole, cut, and in a list; and strings of about 4,096 bytes. */
static void long_strings(void)
{
    static const uint16_t lengths[] = {127, 128, 255, 256, 300};
    static uint8_t bytes[LONG_MAX];
    size_t i, header;

    for (i = 0; i < COUNT(lengths); i++) {
        memset(bytes, 0x55, sizeof bytes);
        bytes[0] = 0x04;
        bytes[1] = (uint8_t)(lengths[i] > 255 ? 0x82 : lengths[i] > 127 ? 0x81 : lengths[i]);
        bytes[2] = (uint8_t)(lengths[i] > 255 ? lengths[i] >> 8 : lengths[i]);
        bytes[3] = (uint8_t)lengths[i];
        header = lengths[i] > 255 ? 4 : lengths[i] > 127 ? 3 : 2;
        emit_tree(bytes, header + lengths[i], 4);
        emit_tree(bytes, header + lengths[i] - 1u, 4);
        emit_tree(bytes, header + lengths[i] + 1u, 8);
    }
    for (i = 0; i < 4; i++) {
        memcpy(bytes, "\x04\x82\x0F\xFC", 4);
        emit_tree(bytes, TREE_MAX - 1 + i, i == 3 ? 0 : 8);
    }
    for (i = 0; i + 1 < LONG_MAX; i += 2)
        memcpy(bytes + i, "\x01", 2);
    emit_tree(bytes, TREE_MAX, 4200);
    emit_tree(bytes, TREE_MAX + 1, 4200);
}

/* Rooms too small, just right and larger, for right trees and for refused ones. */
static void rooms(void)
{
    static const uint8_t bytes[] = {0x30, 0x06, 0x02, 0x01, 0x05, 0x04, 0x01, 0x20, 0x05, 0x00, 0x00};
    size_t room;

    for (room = 0; room <= 20; room++)
        emit_tree(bytes, 10, room);
    emit_tree(bytes, 11, 0);
    emit_tree(bytes, 11, 100);
    emit_tree(bytes, 0, 0);
    emit_tree(bytes, 0, 9);
}

static void random_trees(void)
{
    static uint8_t bytes[TREE_MAX];
    size_t i;

    for (i = 0; i < 30; i++)
        emit_tree(bytes, grow_deep(bytes), 100);

    for (i = 0; i < 24; i++) {
        size_t length = grow_tree(bytes, i % 8 == 0 ? 900 : 60);
        emit_tree(bytes, length, 600);
        if (length > 300)
            continue;
        length = damage_tree(bytes, length);
        emit_tree(bytes, length, 600);
        length = damage_tree(bytes, length);
        emit_tree(bytes, length, 600);
    }
}

/* Writing back */

struct listing {
    size_t count;
    uint16_t words[TREE_WORDS_MAX];
    size_t length;
    uint8_t values[TREE_MAX + 1];
    size_t size;
};

static void list_of(struct listing *listing, const uint8_t *bytes, size_t size)
{
    size_t objects;

    memset(listing, 0, sizeof *listing);
    objects = (size_t)(second_tree(bytes, size, listing->words, TREE_WORDS_MAX) >> 40);
    listing->count = TREE_ENTRY * objects;
    listing->length = plain_values(bytes, listing->words, objects, listing->values);
    listing->size = size;
}

static void emit_listing(const struct listing *listing, size_t room)
{
    struct test_case *test_case = new_case('U');
    struct span *words = &test_case->spans[0];
    size_t i;

    for (i = 0; i < listing->count; i++) {
        words->bytes[2 * i] = (uint8_t)(listing->words[i] >> 8);
        words->bytes[2 * i + 1] = (uint8_t)listing->words[i];
    }
    words->length = 2 * listing->count;
    set_span(&test_case->spans[1], listing->values, listing->length);
    test_case->numbers[0] = room;
    test_case->fill = chance_room_byte();
    put_case(stdout, test_case);
}

/* Each word of a listing a little off, and values too few and too many. */
static void wrong_listings(void)
{
    static const uint8_t bytes[] = {0x30, 0x05, 0x02, 0x01, 0x05, 0x21, 0x00, 0x04, 0x02, 0x41, 0x42};
    struct listing listing, changed;
    size_t i;

    list_of(&listing, bytes, sizeof bytes);
    for (i = 0; i < listing.count; i++) {
        changed = listing;
        changed.words[i]++;
        emit_listing(&changed, 100);
        changed.words[i] = (uint16_t)(listing.words[i] - 1);
        emit_listing(&changed, 100);
        changed.words[i] = (uint16_t)(listing.words[i] + 256u);
        emit_listing(&changed, i % 2 ? 100 : 0);
        changed = listing;
        changed.count = i;
        emit_listing(&changed, 100);
    }
    for (i = 0; i <= 4; i++) {
        changed = listing;
        changed.length = i;
        emit_listing(&changed, 100);
    }
    for (i = 1; i <= 4; i++) {
        changed = listing;
        changed.count += i;
        emit_listing(&changed, 100);
    }
    changed = listing;
    changed.words[0] = 0x04;
    emit_listing(&changed, 100);
    changed = listing;
    memcpy(changed.words, listing.words + 12, 8);
    memcpy(changed.words + 12, listing.words, 8);
    emit_listing(&changed, 100);
}

static void right_listings(void)
{
    static uint8_t bytes[TREE_MAX];
    struct listing listing;
    size_t i;

    list_of(&listing, bytes, 0);
    emit_listing(&listing, 0);
    emit_listing(&listing, 5);
    listing.length = 1;
    emit_listing(&listing, 5);
    for (i = 0; i < 24; i++) {
        list_of(&listing, bytes, grow_tree(bytes, i % 8 == 0 ? 700 : 60));
        emit_listing(&listing, listing.size + i % 3);
        if (listing.size > 0)
            emit_listing(&listing, listing.size - 1);
        if (listing.length > 0)
            listing.values[chance(listing.length)] ^= 0x01;
        emit_listing(&listing, 1000);
    }
}

/* One object of the largest size, and one byte more; more than could be. */
static void largest_listings(void)
{
    static const uint16_t lengths[] = {4091, 4092, 4093, 65535};
    struct listing listing = {0};
    size_t i;

    for (i = 0; i < COUNT(lengths); i++) {
        listing.count = 4;
        listing.words[0] = 0x04;
        listing.words[1] = 1;
        listing.words[3] = lengths[i];
        listing.length = lengths[i] < TREE_MAX ? lengths[i] : TREE_MAX;
        memset(listing.values, 0x66, listing.length);
        emit_listing(&listing, i == 0 ? 4095 : 4096);
    }
    listing.words[3] = 0;
    listing.words[2] = 4095;
    listing.length = 0;
    emit_listing(&listing, 4096);
    listing.words[2] = 65535;
    emit_listing(&listing, 4096);
}

/* One plain object of this length, with so many bytes of values, each the same. */
static void emit_plain(size_t length, size_t values, uint8_t value)
{
    static struct listing listing;

    listing.count = TREE_ENTRY;
    listing.words[0] = 0x04;
    listing.words[1] = 1;
    listing.words[2] = 0;
    listing.words[3] = (uint16_t)length;
    memset(listing.values, value, values);
    listing.length = values;
    emit_listing(&listing, TREE_MAX);
}

/* Both sides of each edge of the length field, and values of another number where the bytes are as many as there may be;
   values of 00, which are not filled up where they are too few. */
void written_lengths(void)
{
    static const size_t lengths[] = {126, 127, 128, 129, 254, 255, 256, 257, 4090, 4091, 4092, 4093};
    size_t i;

    for (i = 0; i < COUNT(lengths); i++) {
        emit_plain(lengths[i], lengths[i], 0x2A);
        emit_plain(lengths[i], lengths[i] + 1, 0x2A);
        emit_plain(lengths[i], lengths[i] - 1, 0x2A);
    }
    emit_plain(TREE_MAX - 4, TREE_MAX - 4, 0x00);
    emit_plain(TREE_MAX - 4, TREE_MAX - 5, 0x00);
    emit_plain(TREE_MAX - 5, TREE_MAX - 6, 0x00);
}

void tree_cases(void)
{
    short_strings();
    telling_strings();
    long_strings();
    rooms();
    random_trees();
    wrong_listings();
    right_listings();
    largest_listings();
}
