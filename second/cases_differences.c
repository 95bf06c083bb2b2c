/* Two cards side by side.
   Written from the documents alone, without a look at the library. */
#include <string.h>

#include "answers.h"
#include "cases.h"
#include "chance.h"
#include "differences.h"
#include "list.h"
#include "samples.h"

uint64_t answer_differences(const struct test_case *test_case, FILE *out)
{
    const struct span *first = &test_case->spans[0], *second = &test_case->spans[1];
    uint32_t room[DIFFERENCE_COUNT];
    uint64_t answer;
    size_t i;

    memset(room, 0xA5, sizeof room);
    answer = second_differences(test_case->editions[0].table, TABLE_SIZE, first->bytes, first->length,
                                second->bytes, second->length, room, DIFFERENCE_COUNT);
    print_answer(out, answer);
    fprintf(out, " %u", (unsigned)(answer >> 40));
    for (i = 0; i < answer >> 40; i++)
        fprintf(out, " %06lX", (unsigned long)room[i]);
    return answer;
}

static void emit_spans(const struct edition *edition, const uint8_t *first, size_t first_length,
                       const uint8_t *second, size_t second_length)
{
    struct test_case *test_case = new_case('D');

    test_case->editions[0] = *edition;
    set_span(&test_case->spans[0], first, first_length);
    set_span(&test_case->spans[1], second, second_length);
    put_case(stdout, test_case);
}

/* The cards of two records, both ways round. */
static void emit_records(const struct edition *edition, const uint8_t *first, const uint8_t *second)
{
    struct draft drafts[2];

    draft_card(&drafts[0], first);
    draft_card(&drafts[1], second);
    emit_spans(edition, drafts[0].image, IMAGE_SIZE, drafts[1].image, IMAGE_SIZE);
    emit_spans(edition, drafts[1].image, IMAGE_SIZE, drafts[0].image, IMAGE_SIZE);
}

/* One object absent, shorter, and different at its first, at its last and at any index. */
static void one_object(void)
{
    uint8_t first[RECORD_SIZE], second[RECORD_SIZE];
    size_t row, i;

    for (row = 0; row < OBJECT_COUNT; row++) {
        record_around(first, row);
        memcpy(second, first, RECORD_SIZE);
        set_absent(second, row);
        emit_records(&wide, first, second);
        memcpy(second, first, RECORD_SIZE);
        chance_fill(second, wide.table, row, slot_in(first, row)[0] + 1u);
        emit_records(&wide, first, second);
        for (i = 0; i < 3; i++) {
            size_t length = slot_in(first, row)[0];
            size_t index = i == 0 ? 0 : i == 1 ? length - 1 : chance(length);
            memcpy(second, first, RECORD_SIZE);
            slot_of(second, row)[1 + index] = slot_in(first, row)[1 + index] == 0x37 ? 0x38 : 0x37;
            if (i == 2 && index + 1 < length)
                slot_of(second, row)[length] = 0x5F;
            emit_records(&wide, first, second);
        }
    }
}

static void other_bytes(void)
{
    uint8_t first[RECORD_SIZE], second[RECORD_SIZE];
    size_t i;

    record_full(first);
    for (i = 0; i < RECORD_LAST; i++) {
        memcpy(second, first, RECORD_SIZE);
        second[i] = i == 0 ? 0xA2 : (uint8_t)(first[i] ^ 0x01);
        emit_records(&issue, first, second);
    }
    first[0] = 0x82;
    memcpy(second, first, RECORD_SIZE);
    second[RECORD_LAST] = 0xFF;
    emit_records(&issue, first, second);
    if (!chance_record_of(first, terminal.table, 93))
        return;
    first[0] = 0x82;
    first[RECORD_LAST] = 0x00;
    memcpy(second, first, RECORD_SIZE);
    second[RECORD_LAST] = 0xFF;
    emit_records(&terminal, first, second);
    second[0] = 0x92;
    second[RECORD_LAST] = 0x00;
    emit_records(&terminal, first, second);
}

/* All thirty at once, and none. */
static void all_and_none(void)
{
    uint8_t first[RECORD_SIZE], second[RECORD_SIZE], third[RECORD_SIZE];
    size_t row, i;

    record_full(first);
    first[0] = 0x82;
    first[RECORD_LAST] = 0xFF;
    memcpy(second, first, RECORD_SIZE);
    second[0] = 0x92;
    second[RECORD_LAST] = 0x00;
    for (i = RECORD_FREE; i < RECORD_LAST; i++)
        second[i] = 0xFF;
    memcpy(third, second, RECORD_SIZE);
    for (row = 0; row < OBJECT_COUNT; row++) {
        slot_of(second, row)[1] = 0x2B;
        chance_fill(third, wide.table, row, slot_in(first, row)[0] + (row % 3 == 0 ? 1u : 0u));
        if (row % 5 == 4)
            set_absent(third, row);
    }
    emit_records(&wide, first, second);
    emit_records(&wide, first, third);
    emit_records(&wide, second, third);
    emit_records(&wide, first, first);
}

/* Some samples, refused ones among them: the first card's refusal before the second's. */
static void pairs_of_samples(void)
{
    struct draft first, second;
    size_t i, k;

    for (i = 0; i < sample_count(); i += 3) {
        for (k = 1; k < sample_count(); k += 3) {
            make_sample(i, &first);
            make_sample(k, &second);
            emit_spans(&terminal, first.image, IMAGE_SIZE, second.image, IMAGE_SIZE);
            if ((i + k) % 4 == 0)
                emit_spans(&issue, second.image, IMAGE_SIZE, first.image, IMAGE_SIZE);
        }
    }
}

static void sizes(void)
{
    uint8_t bytes[257] = {0}, record[RECORD_SIZE];
    struct edition bad = issue;
    struct draft draft;

    bad.selector = 0;
    bad.table[ROW_SIZE * ROW_90] = 3;
    record_full(record);
    draft_card(&draft, record);
    memcpy(bytes, draft.image, IMAGE_SIZE);
    emit_spans(&terminal, bytes, 257, bytes, 256);
    emit_spans(&terminal, bytes, 256, bytes, 255);
    emit_spans(&terminal, bytes, 0, bytes, 0);
    emit_spans(&bad, bytes, 255, bytes, 256);
    emit_spans(&bad, bytes, 256, bytes, 255);
}

static void random_pairs(void)
{
    uint8_t first[RECORD_SIZE], second[RECORD_SIZE];
    size_t i, row;

    for (i = 0; i < 16; i++) {
        const struct edition *edition = turn(i);
        if (!chance_record(first, edition->table))
            continue;
        memcpy(second, first, RECORD_SIZE);
        if (i % 4 == 3 && !chance_record(second, edition->table))
            continue;
        row = chance(OBJECT_COUNT);
        chance_fill(second, edition->table, row, slot_in(second, row)[0]);
        second[RECORD_FREE + chance(FREE_COUNT)] ^= 0x80;
        emit_records(edition, first, second);
    }
}

void differences_cases(void)
{
    one_object();
    other_bytes();
    all_and_none();
    pairs_of_samples();
    sizes();
    random_pairs();
}
