/* Written from document 01 alone, without a look at the library. */
#include <string.h>

#include "cases.h"
#include "chance.h"

#define COUNT(list) (sizeof(list) / sizeof((list)[0]))

static void image_lengths(void)
{
    static const size_t lengths[] = {0, 1, 2, 255, 256, 257, 512, 600};
    struct edition bad = wide;
    uint8_t record[RECORD_SIZE];
    uint8_t bytes[600];
    struct draft draft;
    size_t i;

    bad.table[1] = RULE_RAW;
    record_s(record);
    set_text(record, ROW_83, "1000");
    draft_card(&draft, record);
    memset(bytes, 0x20, sizeof bytes);
    memcpy(bytes, draft.image, IMAGE_SIZE);
    for (i = 0; i < COUNT(lengths); i++) {
        emit_image(&terminal, bytes, lengths[i]);
        emit_image(&issue, bytes, lengths[i]);
        emit_image(&bad, bytes, lengths[i]);
    }
}

static void fixed_bytes(void)
{
    static const uint8_t first[] = {0x00, 0x80, 0x81, 0x83, 0x82, 0x90, 0x92, 0x93, 0xA2, 0xB2, 0xC2, 0xFF};
    uint8_t record[RECORD_SIZE];
    struct draft draft, changed;
    size_t i;

    record_full(record);
    draft_card(&draft, record);
    for (i = 1; i < 30; i++) {
        if (i >= 6 && i <= 16 && i % 3 != 0)
            continue;
        emit_damaged(turn(i), &draft, i, draft.image[i] ^ 1);
        if (i < 6 || i > 16)
            emit_damaged(turn(i + 1), &draft, i, (uint8_t)chance(256));
    }
    for (i = 0; i < COUNT(first); i++)
        emit_damaged(turn(i), &draft, 0, first[i]);
    emit_damaged(&terminal, &draft, 22, 0x80);
    emit_damaged(&issue, &draft, 22, 0x80);
    changed = draft;
    for (i = 6; i < 17; i++)
        changed.image[i] = (uint8_t)(i * 16);
    changed.image[29] = 0x60;
    emit_draft(&terminal, &changed);
}

/* Two wrong places at once: the earlier check speaks. */
static void head_order(void)
{
    static const uint8_t pairs[][2] = {{0, 1}, {1, 28}, {5, 17}, {28, 30}, {26, 31}, {3, 255}, {30, 31}, {30, 160}};
    uint8_t record[RECORD_SIZE];
    struct draft draft;
    size_t i;

    record_full(record);
    for (i = 0; i < COUNT(pairs); i++) {
        draft_card(&draft, record);
        draft.image[pairs[i][0]] ^= 0x40;
        draft.image[pairs[i][1]] ^= 0x04;
        emit_draft(turn(i), &draft);
    }
}

static void template_length_bytes(void)
{
    static const uint8_t tags[] = {0x00, 0x61, 0x20, 0xE0, 0xC0, 0x80};
    static const uint8_t ones[] = {
        0, 1, 45, 51, 68, 69, 70, 71, 72, 73, 74, 93, 100, 126, 127, 0x80, 0x81, 0x82, 0x83, 0x84, 0x88, 0xC6,
        0xD4, 0xFF
    };
    static const uint8_t twos[] = {0, 1, 0x45, 0x46, 0x7E, 0x7F, 0x80, 0x81, 0x83, 0x84, 0x85, 0xD3, 0xD4, 0xD5, 0xFF};
    uint8_t record[RECORD_SIZE];
    struct draft draft;
    size_t i;

    record_s(record);
    set_text(record, ROW_83, "5000");
    draft_card(&draft, record);
    for (i = 0; i < COUNT(tags); i++)
        emit_damaged(turn(i), &draft, 30, tags[i]);
    for (i = 0; i < COUNT(ones); i++)
        emit_damaged(turn(i), &draft, 31, ones[i]);
    record_full(record);
    draft_card(&draft, record);
    for (i = 0; i < COUNT(twos); i++)
        emit_damaged(turn(i), &draft, 32, twos[i]);
}

/* '81' in front of a length up to 127, with the filler where it then belongs. */
static void long_form(void)
{
    static const size_t lengths[] = {70, 71, 93, 100, 126, 127};
    uint8_t record[RECORD_SIZE];
    struct draft draft;
    size_t i;

    for (i = 0; i < COUNT(lengths) && chance_record_of(record, terminal.table, lengths[i]); i++) {
        draft_start(&draft);
        draft.long_form = 1;
        draft_rows(&draft, record, 0, OBJECT_COUNT);
        draft_checksum(&draft);
        draft_finish(&draft, record);
        emit_draft(&terminal, &draft);
    }
}

static void wrong_tags(void)
{
    static const uint8_t tags[] = {0x00, 0x7F, 0x91, 0x60, 0xC0, 0xFF};
    uint8_t record[RECORD_SIZE];
    struct draft draft;
    size_t row, i;

    record_full(record);
    draft_card(&draft, record);
    for (i = 0; i < COUNT(tags); i++) {
        emit_damaged(turn(i), &draft, draft.tag_at[ROW_80], tags[i]);
        emit_damaged(turn(i), &draft, draft.tag_at[ROW_8E], tags[i]);
    }
    for (row = 0; row < ROW_COUNT; row++) {
        const struct edition *edition = turn(row);
        emit_damaged(edition, &draft, draft.tag_at[row], tags[row % COUNT(tags)]);
        if (row > 0)
            emit_damaged(edition, &draft, draft.tag_at[row], second_tags[row - 1]);
        if (row < ROW_8E)
            emit_damaged(edition, &draft, draft.tag_at[row], second_tags[row + 1]);
        emit_damaged(edition, &draft, draft.tag_at[row], second_tags[chance(ROW_COUNT)]);
    }
}

/* Once with the row twice, once with the row behind its follower. */
static void repeated_and_swapped(void)
{
    uint8_t record[RECORD_SIZE];
    struct draft draft;
    size_t row;

    record_full(record);
    for (row = 0; row < OBJECT_COUNT; row++) {
        draft_start(&draft);
        draft_rows(&draft, record, 0, row + 1);
        draft_rows(&draft, record, row, OBJECT_COUNT);
        draft_checksum(&draft);
        draft_finish(&draft, record);
        emit_draft(turn(row), &draft);
        draft_start(&draft);
        draft_rows(&draft, record, 0, row);
        draft_rows(&draft, record, row + 1, row + 2);
        if (row == ROW_8D)
            draft_checksum(&draft);
        draft_rows(&draft, record, row, row + 1);
        draft_rows(&draft, record, row + 2, OBJECT_COUNT);
        if (row != ROW_8D)
            draft_checksum(&draft);
        draft_finish(&draft, record);
        emit_draft(turn(row + 1), &draft);
    }
}

static void passed_over(void)
{
    uint8_t record[RECORD_SIZE];
    size_t row, other;

    for (row = 0; row < OBJECT_COUNT; row++) {
        record_full(record);
        set_absent(record, row);
        emit_card(&terminal, record);
        emit_card(&issue, record);
        other = chance(OBJECT_COUNT);
        set_absent(record, other);
        emit_card(turn(row), record);
    }
}

/* The template stops behind the row's object: no tag is due, the first missing row is told. */
static void stopped_between(void)
{
    uint8_t record[RECORD_SIZE];
    struct draft draft;
    size_t row;

    if (!chance_record_of(record, issue.table, 212))
        return;
    for (row = ROW_90; row < OBJECT_COUNT; row++) {
        draft_start(&draft);
        draft_rows(&draft, record, 0, row + 1);
        if (draft.body_length < 70)
            continue;
        draft_finish(&draft, record);
        emit_draft(&terminal, &draft);
        emit_draft(&issue, &draft);
        emit_draft(&wide, &draft);
    }
}

/* The template stops within the row's object, of which `kept` bytes are left. */
static void stop_within(const uint8_t *record, size_t row, size_t kept, int bad_length)
{
    struct draft draft;
    size_t start;

    draft_start(&draft);
    draft_rows(&draft, record, 0, row);
    start = draft.body_length;
    if (row == ROW_8E)
        draft_checksum(&draft);
    else
        draft_rows(&draft, record, row, row + 1);
    draft.checksum_at = 0;
    if (bad_length)
        draft.body[start + 1] = (uint8_t)(chance(2) ? 0 : 29 + chance(227));
    draft.body_length = start + kept;
    if (draft.body_length < 70)
        return;
    draft_finish(&draft, record);
    emit_draft(turn(row + kept), &draft);
}

static void stopped_within(void)
{
    uint8_t record[RECORD_SIZE];
    size_t row;

    if (!chance_record_of(record, issue.table, 212))
        return;
    for (row = ROW_90; row < ROW_COUNT; row++) {
        size_t length = row == ROW_8E ? 1 : slot_in(record, row)[0];
        stop_within(record, row, 1, 0);
        stop_within(record, row, 2, 0);
        stop_within(record, row, 2, 1);
        stop_within(record, row, 1 + length, 0);
    }
}

static void emit_length(const struct edition *edition, size_t row, size_t length)
{
    uint8_t record[RECORD_SIZE];
    uint8_t value[40];
    struct draft draft;

    record_around(record, row);
    memset(value, 0x31, sizeof value);
    chance_value(row_of_table(edition->table, row).rule, value, length < 28 ? length : 28);
    draft_start(&draft);
    draft_rows(&draft, record, 0, row);
    draft_object(&draft, row, value, length);
    draft_rows(&draft, record, row + 1, OBJECT_COUNT);
    if (row != ROW_8E)
        draft_checksum(&draft);
    draft_finish(&draft, record);
    emit_draft(edition, &draft);
}

static void every_length(void)
{
    static const uint8_t terminal_rows[] = {ROW_80, ROW_83, ROW_84};
    static const uint8_t issue_rows[] = {ROW_83, ROW_90, ROW_8C};
    size_t i, length;

    for (length = 0; length <= 30; length++) {
        for (i = 0; i < COUNT(terminal_rows); i++)
            emit_length(&terminal, terminal_rows[i], length);
        for (i = 0; i < COUNT(issue_rows); i++)
            emit_length(&issue, issue_rows[i], length);
    }
}

/* Both sides of both ends of each set. */
static void ends_of_lengths(void)
{
    size_t row;

    for (row = 0; row < ROW_COUNT; row++) {
        const struct edition *edition = turn(row);
        uint32_t lengths = row_of_table(edition->table, row).lengths;
        size_t shortest = 1, longest = 28;
        while ((lengths >> shortest & 1) == 0)
            shortest++;
        while ((lengths >> longest & 1) == 0)
            longest--;
        emit_length(edition, row, shortest - 1);
        if (row != ROW_8E) {
            emit_length(edition, row, shortest);
            emit_length(edition, row, longest);
        }
        emit_length(edition, row, longest + 1);
    }
    emit_length(&terminal, ROW_8E, 3);
    emit_length(&terminal, ROW_8E, 28);
    emit_length(&issue, ROW_8E, 29);
}

static void length_bytes_beyond(void)
{
    static const uint8_t bytes[] = {29, 31, 32, 33, 64, 127, 128, 129, 200, 255};
    uint8_t record[RECORD_SIZE];
    struct draft draft;
    size_t i;

    record_full(record);
    draft_card(&draft, record);
    for (i = 0; i < COUNT(bytes); i++) {
        emit_damaged(&terminal, &draft, draft.tag_at[i] + 1, bytes[i]);
        emit_damaged(&issue, &draft, draft.tag_at[ROW_8E - i] + 1, bytes[i]);
    }
}

static int is_near_an_edge(unsigned byte)
{
    static const uint8_t near[] = {
        0x00, 0x1F, 0x20, 0x21, 0x25, 0x26, 0x29, 0x2A, 0x2B, 0x2C, 0x2D, 0x2F, 0x30, 0x31, 0x39, 0x3A, 0x40, 0x41,
        0x42, 0x5A, 0x5B, 0x5D, 0x5E, 0x5F, 0x60, 0x61, 0x7A, 0x7B, 0x7E, 0x7F, 0x80, 0xB1, 0xDF, 0xFF
    };

    return memchr(near, (int)byte, sizeof near) != NULL;
}

static void every_byte(void)
{
    static const uint8_t digit_rows[] = {ROW_82, ROW_88, ROW_8D};
    uint8_t record[RECORD_SIZE];
    struct draft draft;
    unsigned byte;

    record_full(record);
    draft_card(&draft, record);
    for (byte = 0; byte < 256; byte++) {
        emit_damaged(turn(byte), &draft, draft.tag_at[ROW_87] + 2 + byte % 10, (uint8_t)byte);
        emit_damaged(&issue, &draft, draft.tag_at[ROW_83] + 2, (uint8_t)byte);
        if (!is_near_an_edge(byte))
            continue;
        emit_damaged(turn(byte), &draft, draft.tag_at[digit_rows[byte % 3]] + 2 + byte % 4, (uint8_t)byte);
        emit_damaged(&issue, &draft, draft.tag_at[ROW_90] + 2, (uint8_t)byte);
    }
}

/* Two wrong bytes in one value: the first is told. */
static void first_wrong_byte(void)
{
    uint8_t record[RECORD_SIZE];
    struct draft draft, damaged;
    size_t row;

    record_full(record);
    draft_card(&draft, record);
    for (row = 0; row < OBJECT_COUNT; row++) {
        size_t start = draft.tag_at[row] + 2;
        size_t length = slot_in(record, row)[0];
        damaged = draft;
        damaged.image[start + length - 1] = 0x5E;
        damaged.image[start + chance(length)] = 0x40;
        draft_mend(&damaged);
        emit_draft(turn(row), &damaged);
    }
}

static void damaged_filler(const uint8_t *record)
{
    struct draft draft;
    size_t start, i;

    draft_card(&draft, record);
    start = draft.end;
    for (i = 0; i < 4; i++)
        emit_damaged(&terminal, &draft, start + i, draft.image[start + i] ^ 0x01);
    emit_damaged(&terminal, &draft, start + 1, draft.image[start + 1] ^ 0x80);
    emit_damaged(&terminal, &draft, (start + 254) / 2, 0x00);
    emit_damaged(&terminal, &draft, 252, 0x2E);
    emit_damaged(&terminal, &draft, 253, 0x2E);
    emit_damaged(&terminal, &draft, 254, 0x2E);
    emit_damaged(&terminal, &draft, 254, 0x20);
    emit_damaged(&terminal, &draft, 255, 0x20);
    draft.image[start + 4] = 0x00;
    draft.image[253] = 0x00;
    draft.image[255] = 0x55;
    emit_draft(&terminal, &draft);
}

static void fillers(void)
{
    static const size_t lengths[] = {70, 92, 93, 94, 127, 128, 212};
    uint8_t record[RECORD_SIZE];
    size_t i;

    for (i = 0; i < COUNT(lengths); i++) {
        if (chance_record_of(record, terminal.table, lengths[i]))
            damaged_filler(record);
    }
}

/* Length bytes in a form that the filler's size does not have. */
static void filler_forms(void)
{
    static const struct { uint8_t length, first, second; } forms[] = {
        {92, 0x80, 0x20}, {92, 0x81, 0x7F}, {92, 0x81, 0x81}, {92, 0x82, 0x00}, {93, 0x81, 0x7F}, {93, 0x81, 0x80},
        {93, 0x80, 0x20}, {93, 0x7E, 0x20}, {94, 0x81, 0x7E}, {94, 0x81, 0x7F}, {94, 0x7E, 0x20}, {94, 0x80, 0x20},
        {95, 0x7F, 0x20}, {95, 0x7E, 0x20}, {127, 0x81, 0x5D}, {128, 0x81, 0x5B}
    };
    uint8_t record[RECORD_SIZE];
    struct draft draft;
    size_t i;

    for (i = 0; i < COUNT(forms); i++) {
        if (!chance_record_of(record, issue.table, forms[i].length))
            continue;
        draft_card(&draft, record);
        draft.image[draft.end + 1] = forms[i].first;
        draft.image[draft.end + 2] = forms[i].second;
        emit_draft(turn(i), &draft);
    }
}

/* Two wrong parts of the tail: the earlier one is told. */
static void tail_order(void)
{
    static const size_t lengths[] = {71, 92, 93, 94, 128, 212};
    uint8_t record[RECORD_SIZE];
    struct draft draft, damaged;
    size_t i, first, then;

    for (i = 0; i < COUNT(lengths); i++) {
        if (!chance_record_of(record, terminal.table, lengths[i]))
            continue;
        draft_card(&draft, record);
        for (first = 0; first < 5; first++) {
            for (then = first + 1; then < 6; then++) {
                size_t places[6] = {draft.end, draft.end + 1, draft.end + 2, 253, 254, 255};
                damaged = draft;
                damaged.image[places[first]] ^= 0x41;
                damaged.image[places[then]] ^= 0x41;
                emit_draft(&terminal, &damaged);
            }
        }
    }
}

static void last_bytes(size_t length)
{
    static const uint8_t first[] = {0x82, 0x92, 0xA2};
    static const uint8_t last[] = {0x00, 0xFF, 0x55, 0x20};
    uint8_t record[RECORD_SIZE];
    struct draft draft;
    size_t i, k;

    if (!chance_record_of(record, issue.table, length))
        return;
    for (i = 0; i < COUNT(first); i++) {
        for (k = 0; k < COUNT(last); k++) {
            record[0] = first[i];
            record[RECORD_LAST] = last[k];
            draft_card(&draft, record);
            emit_draft(turn(k), &draft);
            if (length == 93) {
                draft.image[254] = last[(k + 1 + i) % COUNT(last)];
                emit_draft(turn(i), &draft);
            }
        }
    }
}

/* The slip: from the first object on, without '60' and L. */
static uint8_t sum_of_body(const struct draft *draft)
{
    uint8_t sum = 0;
    size_t i;

    for (i = draft->tag_at[ROW_80]; i < draft->checksum_at; i++)
        sum ^= draft->image[i];
    return sum;
}

static void checksums(void)
{
    uint8_t record[RECORD_SIZE];
    struct draft draft;
    size_t i;

    for (i = 0; i < 20; i++) {
        if (!chance_record(record, issue.table))
            continue;
        draft_card(&draft, record);
        if (i < 8)
            draft.image[draft.checksum_at] ^= (uint8_t)(1u << i);
        else if (i < 12)
            draft.image[draft.checksum_at] = sum_of_body(&draft);
        else if (i < 15)
            draft.image[draft.checksum_at] ^= 0x60;
        else
            draft.image[draft.checksum_at] ^= 0x8F;
        if (i % 4 == 3)
            draft.image[draft.end] ^= 0x20;
        emit_draft(turn(i), &draft);
    }
}

/* Bytes behind '8E' within the template, also with a sum, the checksum and the filler wrong. */
static void going_on(void)
{
    static const uint8_t behind[][3] = {
        {0x8D, 0x04, 0x30}, {0x8E, 0x01, 0x00}, {0x00, 0x00, 0x00}, {0x20, 0x20, 0x20}, {0x91, 0x01, 0x31},
        {0xC0, 0x00, 0x00}
    };
    uint8_t record[RECORD_SIZE];
    struct draft draft;
    size_t i, count;

    for (i = 0; i < COUNT(behind) * 4; i++) {
        record_full(record);
        if (i % 4 == 1)
            set_text(record, ROW_85, "A name of twenty-four chars.");
        draft_start(&draft);
        draft_rows(&draft, record, 0, OBJECT_COUNT);
        draft_checksum(&draft);
        for (count = 0; count <= i % 3; count++)
            draft_byte(&draft, behind[i / 4][count]);
        draft_finish(&draft, record);
        if (i % 4 == 2)
            draft.image[draft.checksum_at] ^= 0xFF;
        if (i % 4 == 3)
            draft.image[255] = 0x77;
        emit_draft(turn(i), &draft);
    }
}

/* 11 before 13 before 14. */
static void late_order(void)
{
    uint8_t record[RECORD_SIZE];
    struct draft draft;
    size_t i;

    for (i = 0; i < 8; i++) {
        record_full(record);
        if (i & 1)
            set_text(record, i < 4 ? ROW_85 : ROW_8C, "Twenty-two bytes......");
        draft_card(&draft, record);
        if (i & 2)
            draft.image[draft.checksum_at] ^= 0x10;
        draft.image[253] = 0x21;
        emit_draft(turn(i), &draft);
    }
}

static void mutate(struct draft *draft)
{
    size_t span = chance(5) == 0 ? IMAGE_SIZE : draft->end + 4 - 30;
    size_t address = span == IMAGE_SIZE ? chance(span) : 30 + chance(span);
    uint8_t *byte = &draft->image[address < IMAGE_SIZE ? address : 255];

    switch (chance(5)) {
    case 0:
        *byte ^= (uint8_t)(1u << chance(8));
        break;
    case 1:
        *byte = (uint8_t)(*byte + 1);
        break;
    case 2:
        *byte = (uint8_t)(*byte - 1);
        break;
    case 3:
        *byte = second_tags[chance(ROW_COUNT)];
        break;
    default:
        *byte = (uint8_t)chance(256);
        break;
    }
}

static void mutations(void)
{
    uint8_t record[RECORD_SIZE];
    struct draft draft;
    size_t i;

    for (i = 0; i < 200; i++) {
        if (!chance_record(record, turn(i)->table))
            continue;
        draft_card(&draft, record);
        mutate(&draft);
        if (i % 3 == 0)
            mutate(&draft);
        if (chance(4) != 0)
            draft_mend(&draft);
        emit_draft(i % 8 == 0 ? turn(i + 1) : turn(i), &draft);
    }
}

void reading_cases(void)
{
    image_lengths();
    fixed_bytes();
    head_order();
    template_length_bytes();
    long_form();
    wrong_tags();
    repeated_and_swapped();
    passed_over();
    stopped_between();
    stopped_within();
    every_length();
    ends_of_lengths();
    length_bytes_beyond();
    every_byte();
    first_wrong_byte();
    fillers();
    filler_forms();
    tail_order();
    last_bytes(70 + 4);
    last_bytes(93);
    checksums();
    going_on();
    late_order();
    mutations();
}
