/* Written from document 01 alone, without a look at the library. */
#include "draft.h"

#include <string.h>

uint8_t *slot_of(uint8_t *record, size_t row)
{
    return record + RECORD_SLOTS + row * SLOT_SIZE;
}

const uint8_t *slot_in(const uint8_t *record, size_t row)
{
    return record + RECORD_SLOTS + row * SLOT_SIZE;
}

void set_absent(uint8_t *record, size_t row)
{
    memset(slot_of(record, row), 0, SLOT_SIZE);
}

void set_text(uint8_t *record, size_t row, const char *value)
{
    uint8_t *slot = slot_of(record, row);

    set_absent(record, row);
    slot[0] = (uint8_t)strlen(value);
    memcpy(slot + 1, value, slot[0]);
}

static void set_all(uint8_t *record, const char *const *values)
{
    size_t row;

    memset(record, 0, RECORD_SIZE);
    record[0] = 0x92;
    for (row = 0; row < OBJECT_COUNT; row++)
        set_text(record, row, values[row]);
}

void record_s(uint8_t *record)
{
    static const char *const values[OBJECT_COUNT] = {
        "AB", "1234567", "00000", "123456", "1", "1", "", "A", "",
        "BC", "01011950", "", "", "1234", "XY", "1225"
    };

    set_all(record, values);
}

void record_full(uint8_t *record)
{
    static const char *const values[OBJECT_COUNT] = {
        "AOK Musterstadt", "7654321", "09123", "100200300", "3000", "M", "Dr.", "Ute", "von",
        "M}ller-L~d", "24121961", "Am Markt 1/2", "F", "12345", "Bad Ort", "0930"
    };

    set_all(record, values);
}

void put_number(uint8_t *record, const uint8_t *table)
{
    record[RECORD_NUMBER] = table[TABLE_NUMBER];
}

size_t template_length(const uint8_t *record)
{
    size_t total = 3;
    size_t row;

    for (row = 0; row < OBJECT_COUNT; row++) {
        size_t length = slot_in(record, row)[0];
        total += length != 0 ? length + 2 : 0;
    }
    return total;
}

void draft_start(struct draft *draft)
{
    memset(draft, 0, sizeof *draft);
}

void draft_byte(struct draft *draft, uint8_t byte)
{
    if (draft->body_length < sizeof draft->body)
        draft->body[draft->body_length++] = byte;
}

void draft_object(struct draft *draft, size_t row, const uint8_t *value, size_t length)
{
    size_t i;

    draft->tag_at[row] = draft->body_length;
    draft_byte(draft, second_tags[row]);
    draft_byte(draft, (uint8_t)length);
    for (i = 0; i < length; i++)
        draft_byte(draft, value[i]);
}

void draft_rows(struct draft *draft, const uint8_t *record, size_t from, size_t until)
{
    size_t row;

    for (row = from; row < until && row < OBJECT_COUNT; row++) {
        const uint8_t *slot = slot_in(record, row);
        if (slot[0] == 0)
            continue;
        draft_object(draft, row, slot + 1, slot[0] < VALUE_MAX ? slot[0] : VALUE_MAX);
        draft->body[draft->tag_at[row] + 1] = slot[0];
    }
}

void draft_checksum(struct draft *draft)
{
    static const uint8_t none = 0;

    draft_object(draft, ROW_8E, &none, 1);
    draft->checksum_at = draft->body_length - 1;
}

void draft_mend(struct draft *draft)
{
    uint8_t sum = 0;
    size_t i;

    if (draft->checksum_at == 0 || draft->checksum_at >= IMAGE_SIZE)
        return;
    for (i = 30; i < draft->checksum_at; i++)
        sum ^= draft->image[i];
    draft->image[draft->checksum_at] = sum;
}

static void put(struct draft *draft, size_t address, uint8_t byte)
{
    if (address < IMAGE_SIZE)
        draft->image[address] = byte;
}

static void put_head(struct draft *draft, const uint8_t *record)
{
    static const uint8_t front[6] = {0, 0x13, 0x10, 0x91, 0x46, 0x0B};
    static const uint8_t back[12] = {
        0x61, 0x0B, 0x4F, 0x06, 0xD2, 0x76, 0x00, 0x00, 0x01, 0x01, 0x53, 0x01
    };

    memcpy(draft->image, front, 6);
    draft->image[0] = record[0];
    memcpy(draft->image + 6, record + RECORD_FREE, 11);
    memcpy(draft->image + 17, back, 12);
    draft->image[29] = record[RECORD_LAST - 1];
}

/* Everything from the start on is a space already. */
static void put_filler(struct draft *draft, uint8_t last)
{
    size_t room = draft->end < 255 ? 255 - draft->end : 0;

    put(draft, draft->end, 0xC0);
    if (room > 130) {
        put(draft, draft->end + 1, 0x81);
        put(draft, draft->end + 2, (uint8_t)(room - 3));
    } else if (room == 130) {
        put(draft, draft->end + 1, 127);
        put(draft, 254, last);
    } else if (room >= 2) {
        put(draft, draft->end + 1, (uint8_t)(room - 2));
    }
    draft->image[255] = last;
}

void draft_finish(struct draft *draft, const uint8_t *record)
{
    size_t behind = draft->long_form != 0 ? draft->long_form : draft->body_length > 127;
    size_t begin = 32 + behind;
    size_t i;

    memset(draft->image, 0x20, IMAGE_SIZE);
    put_head(draft, record);
    draft->image[30] = 0x60;
    memset(draft->image + 31, 0, behind);
    draft->image[31] = (uint8_t)(0x80 + behind);
    draft->image[begin - 1] = (uint8_t)draft->body_length;
    for (i = 0; i < draft->body_length; i++)
        put(draft, begin + i, draft->body[i]);
    for (i = 0; i < ROW_COUNT; i++)
        draft->tag_at[i] += begin;
    draft->checksum_at += draft->checksum_at != 0 ? begin : 0;
    draft->end = begin + draft->body_length;
    put_filler(draft, record[RECORD_LAST]);
    draft_mend(draft);
}

void draft_card(struct draft *draft, const uint8_t *record)
{
    draft_start(draft);
    draft_rows(draft, record, 0, OBJECT_COUNT);
    draft_checksum(draft);
    draft_finish(draft, record);
}
