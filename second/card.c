/* Written from document 01 alone, without a look at the library. */
#include "card.h"

#include <string.h>

enum {
    NO_ROW = ROW_COUNT,
    TEMPLATE_START = 30,
    TEMPLATE_MIN = 70,
    TEMPLATE_MAX = 212,
    SHORT_MAX = 127,
    FILLER_MAX = 150
};

struct row {
    uint32_t lengths;
    uint8_t required;
    uint8_t rule;
};

/* The template under way: where the next tag is due and what was found so far.
   A length of 0 says that the row's object is absent. */
struct walk {
    const struct row *rows;
    const uint8_t *image;
    size_t position;
    size_t end;
    size_t due;
    uint8_t start[ROW_COUNT];
    uint8_t length[ROW_COUNT];
};

const uint8_t second_tags[ROW_COUNT] = {
    0x80, 0x81, 0x8F, 0x82, 0x83, 0x90, 0x84, 0x85, 0x86,
    0x87, 0x88, 0x89, 0x8A, 0x8B, 0x8C, 0x8D, 0x8E
};

/* By tag less '80'. */
static const uint8_t row_of_tag[17] = {
    ROW_80, ROW_81, ROW_82, ROW_83, ROW_84, ROW_85, ROW_86, ROW_87, ROW_88,
    ROW_89, ROW_8A, ROW_8B, ROW_8C, ROW_8D, ROW_8E, ROW_8F, ROW_90
};

/* The free addresses 6-16 hold 0 here and are not compared. */
static const uint8_t head[29] = {
    0x00, 0x13, 0x10, 0x91, 0x46, 0x0B,
    0, 0, 0, 0, 0, 0, 0, 0, 0, 0, 0,
    0x61, 0x0B, 0x4F, 0x06, 0xD2, 0x76, 0x00, 0x00, 0x01, 0x01, 0x53, 0x01
};

/* Bit 0: a digit. Bit 1: text. */
enum { IS_DIGIT = 1, IS_TEXT = 2 };

static const uint8_t characters[256] = {
    0, 0, 0, 0, 0, 0, 0, 0, 0, 0, 0, 0, 0, 0, 0, 0,
    0, 0, 0, 0, 0, 0, 0, 0, 0, 0, 0, 0, 0, 0, 0, 0,
    2, 0, 0, 0, 0, 0, 2, 2, 2, 2, 0, 2, 0, 2, 2, 2,
    3, 3, 3, 3, 3, 3, 3, 3, 3, 3, 0, 0, 0, 0, 0, 0,
    0, 2, 2, 2, 2, 2, 2, 2, 2, 2, 2, 2, 2, 2, 2, 2,
    2, 2, 2, 2, 2, 2, 2, 2, 2, 2, 2, 2, 2, 2, 0, 2,
    0, 2, 2, 2, 2, 2, 2, 2, 2, 2, 2, 2, 2, 2, 2, 2,
    2, 2, 2, 2, 2, 2, 2, 2, 2, 2, 2, 2, 2, 2, 2, 0
};

static const uint8_t spaces[FILLER_MAX] =
    "                                                  "
    "                                                  "
    "                                                  ";

#define ONE(n) (UINT32_C(1) << (n))
#define RANGE(from, to) ((ONE(to) << 1) - ONE(from))

static const struct row terminal_rows[ROW_COUNT] = {
    {RANGE(2, 28), 1, RULE_TEXT},
    {ONE(7), 1, RULE_DIGITS},
    {ONE(5), 0, RULE_DIGITS},
    {RANGE(6, 12), 1, RULE_DIGITS},
    {ONE(1) | ONE(4), 1, RULE_DIGITS},
    {RANGE(1, 3), 0, RULE_TEXT},
    {RANGE(2, 15), 0, RULE_TEXT},
    {RANGE(1, 28), 0, RULE_TEXT},
    {RANGE(1, 15), 0, RULE_TEXT},
    {RANGE(2, 28), 1, RULE_TEXT},
    {ONE(8), 1, RULE_BIRTH},
    {RANGE(2, 28), 0, RULE_TEXT},
    {RANGE(1, 3), 0, RULE_TEXT},
    {RANGE(4, 7), 1, RULE_TEXT},
    {RANGE(2, 23), 1, RULE_TEXT},
    {ONE(4), 0, RULE_EXPIRY},
    {ONE(1), 1, RULE_RAW}
};

static const struct row issue_rows[ROW_COUNT] = {
    {RANGE(2, 28), 1, RULE_TEXT},
    {ONE(7), 1, RULE_DIGITS},
    {ONE(5), 1, RULE_DIGITS},
    {RANGE(6, 12), 1, RULE_DIGITS},
    {ONE(4), 1, RULE_LEAD},
    {ONE(1), 1, RULE_CODE},
    {RANGE(2, 15), 0, RULE_TEXT},
    {RANGE(1, 28), 1, RULE_TEXT},
    {RANGE(1, 15), 0, RULE_TEXT},
    {RANGE(2, 28), 1, RULE_TEXT},
    {ONE(8), 1, RULE_BIRTH},
    {RANGE(2, 28), 0, RULE_TEXT},
    {RANGE(1, 3), 0, RULE_NOT_D},
    {RANGE(4, 7), 1, RULE_TEXT},
    {RANGE(2, 22), 1, RULE_TEXT},
    {ONE(4), 1, RULE_EXPIRY},
    {ONE(1), 1, RULE_RAW}
};

static uint64_t refusal(unsigned number, size_t place, unsigned tag)
{
    return (uint64_t)number | (uint64_t)place << 8 | (uint64_t)tag << 16;
}

/* The set is not empty. */
static uint64_t length_refusal(size_t place, unsigned tag, uint32_t lengths)
{
    unsigned shortest = 0;
    unsigned longest = 31;

    while ((lengths & ONE(shortest)) == 0)
        shortest++;
    while ((lengths & ONE(longest)) == 0)
        longest--;
    return refusal(7, place, tag) | (uint64_t)shortest << 24 | (uint64_t)longest << 32;
}

/* Editions */

static struct row unpack_row(const uint8_t *bytes)
{
    struct row row;

    row.required = bytes[0];
    row.rule = bytes[1];
    row.lengths = (uint32_t)bytes[2] << 24 | (uint32_t)bytes[3] << 16
                | (uint32_t)bytes[4] << 8 | (uint32_t)bytes[5];
    return row;
}

static void pack_row(const struct row *row, uint8_t *bytes)
{
    bytes[0] = row->required;
    bytes[1] = row->rule;
    bytes[2] = (uint8_t)(row->lengths >> 24);
    bytes[3] = (uint8_t)(row->lengths >> 16);
    bytes[4] = (uint8_t)(row->lengths >> 8);
    bytes[5] = (uint8_t)row->lengths;
}

static int row_is_well_formed(const struct row *row, size_t index)
{
    if (row->required > 1 || row->rule > RULE_NOT_D)
        return 0;
    if (row->lengths == 0 || (row->lengths & ~RANGE(1, VALUE_MAX)) != 0)
        return 0;
    if (index == ROW_8E)
        return row->required == 1 && row->rule == RULE_RAW && row->lengths == ONE(1);
    if (row->rule == RULE_BIRTH)
        return row->lengths == ONE(8);
    if (row->rule == RULE_EXPIRY)
        return row->lengths == ONE(4);
    return row->rule != RULE_RAW;
}

static uint64_t load_edition(const uint8_t *edition, size_t edition_len, struct row *rows)
{
    size_t i;

    if (edition_len != TABLE_SIZE)
        return refusal(2, 0, 0);
    for (i = 0; i < ROW_COUNT; i++) {
        rows[i] = unpack_row(edition + i * ROW_SIZE);
        if (!row_is_well_formed(&rows[i], i))
            return refusal(2, 0, second_tags[i]);
    }
    return edition[TABLE_NUMBER] == 0 ? refusal(2, 0, 0) : 0;
}

uint64_t second_edition(uint64_t which, uint8_t *room, size_t room_len)
{
    const struct row *rows = which == EDITION_TERMINAL ? terminal_rows : issue_rows;
    size_t i;

    if (room_len != TABLE_SIZE)
        return refusal(20, 0, 0);
    if (which != EDITION_TERMINAL && which != EDITION_ISSUE)
        return refusal(2, 0, 0);
    for (i = 0; i < ROW_COUNT; i++)
        pack_row(&rows[i], room + i * ROW_SIZE);
    room[TABLE_NUMBER] = (uint8_t)which;
    return 0;
}

/* Values */

static int length_is_permitted(const struct row *row, size_t length)
{
    return length <= VALUE_MAX && (row->lengths >> length & 1) != 0;
}

/* The index of the first byte outside the rule's characters, or the length. */
static size_t first_outside(unsigned rule, const uint8_t *value, size_t length)
{
    unsigned wanted = rule == RULE_TEXT || rule == RULE_CODE || rule == RULE_NOT_D ? IS_TEXT : IS_DIGIT;
    size_t i = 0;

    if (rule == RULE_RAW)
        return length;
    while (i < length && (characters[value[i]] & wanted) != 0)
        i++;
    return i;
}

static unsigned two_digits(const uint8_t *digits)
{
    return (digits[0] - 0x30u) * 10 + (digits[1] - 0x30u);
}

static int birth_is_taken(const uint8_t *value)
{
    unsigned day = two_digits(value);
    unsigned month = two_digits(value + 2);

    return day <= 31 && month <= 12 && (month != 0 || day == 0);
}

static int expiry_is_taken(const uint8_t *value)
{
    unsigned month = two_digits(value);

    return month >= 1 && month <= 12;
}

/* For a value whose length and characters are right. */
static int meaning_is_taken(unsigned rule, const uint8_t *value, size_t length)
{
    switch (rule) {
    case RULE_LEAD:
        return value[0] == 0x31 || value[0] == 0x33 || value[0] == 0x35;
    case RULE_CODE:
        return memchr("194678MXACKLENDFSP", value[0], 18) != NULL;
    case RULE_BIRTH:
        return birth_is_taken(value);
    case RULE_EXPIRY:
        return expiry_is_taken(value);
    case RULE_NOT_D:
        return length != 1 || value[0] != 0x44;
    default:
        return 1;
    }
}

int second_takes(unsigned rule, const uint8_t *value, size_t length)
{
    if ((rule == RULE_BIRTH && length != 8) || (rule == RULE_EXPIRY && length != 4))
        return 0;
    return first_outside(rule, value, length) == length && meaning_is_taken(rule, value, length);
}

/* Sums */

static int group_is_too_long(const uint8_t *lengths, const uint8_t *alone)
{
    unsigned present = 0;
    unsigned sum = 0;
    unsigned limit = 0;
    size_t i;

    for (i = 0; i < 3; i++) {
        if (lengths[i] != 0) {
            present++;
            sum += lengths[i];
            limit = alone[i];
        }
    }
    if (present == 2)
        limit = 27;
    if (present == 3)
        limit = 26;
    return sum > limit;
}

static size_t first_present(const uint8_t *lengths, size_t row)
{
    while (lengths[row] == 0)
        row++;
    return row;
}

/* The row of the first present object of the first group that is too long, or NO_ROW. */
static size_t row_of_broken_sum(const uint8_t *lengths)
{
    static const uint8_t names_alone[3] = {15, 28, 15};
    static const uint8_t address_alone[3] = {28, 28, 28};

    if (group_is_too_long(lengths + ROW_84, names_alone))
        return first_present(lengths, ROW_84);
    if (group_is_too_long(lengths + ROW_8A, address_alone))
        return first_present(lengths, ROW_8A);
    return NO_ROW;
}

/* Head, checksum and filler */

static int address_0_is_allowed(uint8_t byte)
{
    return byte == 0x82 || byte == 0x92 || byte == 0xA2;
}

static int last_byte_is_allowed(uint8_t address_0, uint8_t last)
{
    return last == 0x00 || (last == 0xFF && address_0 == 0x82);
}

static size_t first_difference(const uint8_t *left, const uint8_t *right, size_t from, size_t to)
{
    while (from < to && left[from] == right[from])
        from++;
    return from;
}

static uint8_t exclusive_or(const uint8_t *bytes, size_t count)
{
    uint64_t wide = 0;
    uint64_t eight;

    for (; count >= 8; count -= 8, bytes += 8) {
        memcpy(&eight, bytes, 8);
        wide ^= eight;
    }
    for (; count > 0; count--, bytes++)
        wide ^= *bytes;
    wide ^= wide >> 32;
    wide ^= wide >> 16;
    wide ^= wide >> 8;
    return (uint8_t)wide;
}

/* Tag and length bytes of the filler that starts here; answers how many. */
static size_t filler_head(size_t start, uint8_t *bytes)
{
    size_t room = 255 - start;

    bytes[0] = 0xC0;
    if (room <= 129) {
        bytes[1] = (uint8_t)(room - 2);
        return 2;
    }
    if (room == 130) {
        bytes[1] = 127;
        return 2;
    }
    bytes[1] = 0x81;
    bytes[2] = (uint8_t)(room - 3);
    return 3;
}

/* The address behind the filler: 254 in the one case, else 255. */
static size_t filler_end(size_t start)
{
    return start == 125 ? 254 : 255;
}

/* Reading */

static uint64_t check_head(const uint8_t *image)
{
    size_t address;

    if (!address_0_is_allowed(image[0]))
        return refusal(3, 0, 0);
    address = first_difference(image, head, 1, 6);
    if (address < 6)
        return refusal(3, address, 0);
    address = first_difference(image, head, 17, 29);
    if (address < 29)
        return refusal(3, address, 0);
    return 0;
}

static uint64_t open_template(struct walk *walk)
{
    const uint8_t *image = walk->image;
    unsigned length = image[TEMPLATE_START + 1];

    if (image[TEMPLATE_START] != 0x60)
        return refusal(4, TEMPLATE_START, 0);
    walk->position = TEMPLATE_START + 2;
    if (length == 0x81) {
        length = image[TEMPLATE_START + 2];
        if (length <= SHORT_MAX || length > TEMPLATE_MAX)
            return refusal(4, TEMPLATE_START + 2, 0);
        walk->position = TEMPLATE_START + 3;
    } else if (length < TEMPLATE_MIN || length > SHORT_MAX) {
        return refusal(4, TEMPLATE_START + 1, 0);
    }
    walk->end = walk->position + length;
    return 0;
}

/* From the length byte on; the tag stands at walk->position and is the row's. */
static uint64_t read_value(struct walk *walk, size_t row)
{
    const struct row *rule_row = &walk->rows[row];
    size_t tag_at = walk->position;
    size_t start = tag_at + 2;
    size_t length, outside;

    if (tag_at + 1 == walk->end)
        return refusal(8, tag_at, second_tags[row]);
    length = walk->image[tag_at + 1];
    if (!length_is_permitted(rule_row, length))
        return length_refusal(tag_at + 1, second_tags[row], rule_row->lengths);
    if (start + length > walk->end)
        return refusal(8, tag_at, second_tags[row]);
    outside = first_outside(rule_row->rule, walk->image + start, length);
    if (outside < length)
        return refusal(9, start + outside, second_tags[row]);
    if (!meaning_is_taken(rule_row->rule, walk->image + start, length))
        return refusal(10, start, second_tags[row]);
    walk->start[row] = (uint8_t)start;
    walk->length[row] = (uint8_t)length;
    walk->position = start + length;
    walk->due = row + 1;
    return 0;
}

/* Answers until if no row from due on and before until is required. */
static size_t first_required(const struct row *rows, size_t due, size_t until)
{
    while (due < until && !rows[due].required)
        due++;
    return due;
}

static uint64_t read_object(struct walk *walk)
{
    size_t row, missing;
    unsigned tag;

    if (walk->position == walk->end) {
        missing = first_required(walk->rows, walk->due, ROW_8E);
        return refusal(6, walk->end, second_tags[missing]);
    }
    tag = walk->image[walk->position];
    if (tag < 0x80 || tag > 0x90)
        return refusal(5, walk->position, 0);
    row = row_of_tag[tag - 0x80];
    if (row < walk->due)
        return refusal(5, walk->position, 0);
    missing = first_required(walk->rows, walk->due, row);
    if (missing < row)
        return refusal(6, walk->position, second_tags[missing]);
    return read_value(walk, row);
}

static uint64_t read_template(struct walk *walk)
{
    uint64_t answer = open_template(walk);
    size_t row;

    while (answer == 0 && walk->due <= ROW_8E)
        answer = read_object(walk);
    if (answer != 0)
        return answer;
    if (walk->position != walk->end)
        return refusal(12, walk->position, 0);
    row = row_of_broken_sum(walk->length);
    if (row != NO_ROW)
        return refusal(11, walk->start[row] - 2u, second_tags[row]);
    return 0;
}

static uint64_t check_checksum(const uint8_t *image, size_t address)
{
    uint8_t sum = exclusive_or(image + TEMPLATE_START, address - TEMPLATE_START);

    return sum == image[address] ? 0 : refusal(13, address, 0);
}

static uint64_t check_filler(const uint8_t *image, size_t start)
{
    uint8_t expected[3];
    size_t count = filler_head(start, expected);
    size_t end = filler_end(start);
    size_t i = first_difference(image + start, expected, 0, count);

    if (i < count)
        return refusal(i == 0 ? 14 : 15, start + i, 0);
    if (memcmp(image + start + count, spaces, end - start - count) != 0) {
        i = first_difference(image + start + count, spaces, 0, end - start - count);
        return refusal(16, start + count + i, 0);
    }
    if (end == 254 && image[254] != image[255])
        return refusal(17, 254, 0);
    if (!last_byte_is_allowed(image[0], image[255]))
        return refusal(17, 255, 0);
    return 0;
}

/* The room holds zeros at entry. */
static void fill_record(const struct walk *walk, uint8_t *record)
{
    uint8_t *slot = record + RECORD_SLOTS;
    size_t row;

    record[0] = walk->image[0];
    memcpy(record + RECORD_FREE, walk->image + 6, FREE_COUNT - 1);
    record[RECORD_FREE + FREE_COUNT - 1] = walk->image[29];
    record[RECORD_LAST] = walk->image[255];
    for (row = 0; row < OBJECT_COUNT; row++, slot += SLOT_SIZE) {
        slot[0] = walk->length[row];
        memcpy(slot + 1, walk->image + walk->start[row], walk->length[row]);
    }
}

uint64_t second_read(const uint8_t *edition, size_t edition_len,
                     const uint8_t *image, size_t image_len,
                     uint8_t *record, size_t record_len)
{
    struct row rows[ROW_COUNT];
    struct walk walk = {rows, image, 0, 0, 0, {0}, {0}};
    uint64_t answer;

    if (record_len != RECORD_SIZE)
        return refusal(20, 0, 0);
    memset(record, 0, RECORD_SIZE);
    if (image_len != IMAGE_SIZE)
        return refusal(1, 0, 0);
    answer = load_edition(edition, edition_len, rows);
    if (answer == 0)
        answer = check_head(image);
    if (answer == 0)
        answer = read_template(&walk);
    if (answer == 0)
        answer = check_checksum(image, walk.start[ROW_8E]);
    if (answer == 0)
        answer = check_filler(image, walk.end);
    if (answer == 0) {
        fill_record(&walk, record);
        record[RECORD_NUMBER] = edition[TABLE_NUMBER];
    }
    return answer;
}

/* Writing */

static uint64_t check_slot(const struct row *row, unsigned tag, const uint8_t *slot)
{
    size_t length = slot[0];
    size_t outside;

    if (length == 0)
        return row->required ? refusal(6, 0, tag) : 0;
    if (!length_is_permitted(row, length))
        return length_refusal(0, tag, row->lengths);
    outside = first_outside(row->rule, slot + 1, length);
    if (outside < length)
        return refusal(9, outside, tag);
    if (!meaning_is_taken(row->rule, slot + 1, length))
        return refusal(10, 0, tag);
    return 0;
}

/* Answers the template length too, where nothing is refused. */
static uint64_t check_objects(const struct row *rows, const uint8_t *record, size_t *template_length)
{
    const uint8_t *slot = record + RECORD_SLOTS;
    uint8_t lengths[OBJECT_COUNT];
    size_t total = 3;
    size_t row;

    for (row = 0; row < OBJECT_COUNT; row++, slot += SLOT_SIZE) {
        uint64_t answer = check_slot(&rows[row], second_tags[row], slot);
        if (answer != 0)
            return answer;
        lengths[row] = slot[0];
        total += slot[0] != 0 ? slot[0] + 2u : 0u;
    }
    row = row_of_broken_sum(lengths);
    if (row != NO_ROW)
        return refusal(11, 0, second_tags[row]);
    if (total < TEMPLATE_MIN || total > TEMPLATE_MAX)
        return refusal(4, 0, 0);
    *template_length = total;
    return 0;
}

/* What a writing refuses behind 22. */
static uint64_t check_record(const struct row *rows, const uint8_t *record, size_t *template_length)
{
    if (!address_0_is_allowed(record[0])
        || !last_byte_is_allowed(record[0], record[RECORD_LAST]))
        return refusal(3, 0, 0);
    return check_objects(rows, record, template_length);
}

static void write_head(const uint8_t *record, uint8_t *image)
{
    memcpy(image, head, sizeof head);
    image[0] = record[0];
    memcpy(image + 6, record + RECORD_FREE, FREE_COUNT - 1);
    image[29] = record[RECORD_FREE + FREE_COUNT - 1];
}

/* Answers the address behind the template. */
static size_t write_template(const uint8_t *record, size_t template_length, uint8_t *image)
{
    const uint8_t *slot = record + RECORD_SLOTS;
    size_t at = TEMPLATE_START;
    size_t row;

    image[at++] = 0x60;
    if (template_length > SHORT_MAX)
        image[at++] = 0x81;
    image[at++] = (uint8_t)template_length;
    for (row = 0; row < OBJECT_COUNT; row++, slot += SLOT_SIZE) {
        if (slot[0] == 0)
            continue;
        image[at++] = second_tags[row];
        image[at++] = slot[0];
        memcpy(image + at, slot + 1, slot[0]);
        at += slot[0];
    }
    image[at++] = second_tags[ROW_8E];
    image[at++] = 1;
    image[at] = exclusive_or(image + TEMPLATE_START, at - TEMPLATE_START);
    return at + 1;
}

static void write_filler(size_t start, uint8_t last, uint8_t *image)
{
    uint8_t bytes[3];
    size_t count = filler_head(start, bytes);

    memcpy(image + start, bytes, count);
    memset(image + start + count, 0x20, filler_end(start) - start - count);
    memset(image + filler_end(start), last, IMAGE_SIZE - filler_end(start));
}

uint64_t second_write(const uint8_t *edition, size_t edition_len,
                      const uint8_t *record, size_t record_len,
                      uint8_t *image, size_t image_len)
{
    struct row rows[ROW_COUNT];
    size_t template_length = 0;
    uint64_t answer;

    if (record_len != RECORD_SIZE || image_len != IMAGE_SIZE)
        return refusal(20, 0, 0);
    answer = load_edition(edition, edition_len, rows);
    if (answer != 0)
        return answer;
    if (record[RECORD_NUMBER] != edition[TABLE_NUMBER])
        return refusal(22, 0, 0);
    answer = check_record(rows, record, &template_length);
    if (answer != 0)
        return answer;
    write_head(record, image);
    write_filler(write_template(record, template_length, image), record[RECORD_LAST], image);
    return 0;
}

uint64_t second_renumber(const uint8_t *edition, size_t edition_len,
                         uint8_t *record, size_t record_len)
{
    struct row rows[ROW_COUNT];
    size_t template_length = 0;
    uint64_t answer;

    if (record_len != RECORD_SIZE)
        return refusal(20, 0, 0);
    answer = load_edition(edition, edition_len, rows);
    if (answer == 0)
        answer = check_record(rows, record, &template_length);
    if (answer == 0)
        record[RECORD_NUMBER] = edition[TABLE_NUMBER];
    return answer;
}
