/* Written from document 01 alone, without a look at the library. */
#include "cases.h"

#include <string.h>

#include "chance.h"

struct edition terminal, issue, wide;

const struct edition *turn(size_t count)
{
    return count % 2 == 0 ? &terminal : &issue;
}

struct test_case *new_case(uint8_t kind)
{
    static struct test_case test_case;

    memset(&test_case, 0, sizeof test_case);
    test_case.kind = kind;
    return &test_case;
}

void set_span(struct span *span, const uint8_t *bytes, size_t length)
{
    span->length = length;
    memcpy(span->bytes, bytes, length);
}

uint8_t chance_room_byte(void)
{
    static const uint8_t fills[4] = {0x00, 0xA5, 0xFF, 0x20};

    return fills[chance(4)];
}

void emit_image(const struct edition *edition, const uint8_t *image, size_t length)
{
    struct test_case *test_case = new_case('R');

    test_case->editions[0] = *edition;
    set_span(&test_case->spans[0], image, length);
    put_case(stdout, test_case);
}

void emit_draft(const struct edition *edition, const struct draft *draft)
{
    emit_image(edition, draft->image, IMAGE_SIZE);
}

void emit_as_numbered(const struct edition *edition, const uint8_t *record, size_t buffer_length)
{
    struct test_case *test_case = new_case('W');

    test_case->editions[0] = *edition;
    memcpy(test_case->record, record, RECORD_SIZE);
    test_case->numbers[0] = buffer_length;
    test_case->fill = chance_room_byte();
    put_case(stdout, test_case);
}

void emit_write(const struct edition *edition, const uint8_t *record, size_t buffer_length)
{
    uint8_t numbered[RECORD_SIZE];

    memcpy(numbered, record, RECORD_SIZE);
    put_number(numbered, edition->table);
    emit_as_numbered(edition, numbered, buffer_length);
}

void emit_record(const struct edition *edition, const uint8_t *record)
{
    emit_write(edition, record, IMAGE_SIZE);
}

void emit_card(const struct edition *edition, const uint8_t *record)
{
    struct draft draft;

    draft_card(&draft, record);
    emit_draft(edition, &draft);
}

void emit_both(const struct edition *edition, const uint8_t *record)
{
    emit_card(edition, record);
    emit_record(edition, record);
}

void emit_damaged(const struct edition *edition, const struct draft *draft, size_t address, uint8_t byte)
{
    struct draft damaged = *draft;

    damaged.image[address] = byte;
    if (address != damaged.checksum_at)
        draft_mend(&damaged);
    emit_draft(edition, &damaged);
}

void record_around(uint8_t *record, size_t row)
{
    record_full(record);
    if (row == ROW_85) {
        set_absent(record, ROW_84);
        set_absent(record, ROW_86);
    }
    if (row == ROW_8C) {
        set_absent(record, ROW_8A);
        set_text(record, ROW_8B, "1234");
    }
}

static void set_up_editions(void)
{
    static const struct rule_row any_text = {0, RULE_TEXT, UINT32_C(0x1FFFFFFE)};
    static const struct rule_row checksum = {1, RULE_RAW, 2};
    size_t row;

    terminal.selector = EDITION_TERMINAL;
    second_edition(EDITION_TERMINAL, terminal.table, TABLE_SIZE);
    issue.selector = EDITION_ISSUE;
    second_edition(EDITION_ISSUE, issue.table, TABLE_SIZE);
    wide.selector = 0;
    for (row = 0; row < OBJECT_COUNT; row++)
        row_to_table(wide.table, row, any_text);
    row_to_table(wide.table, ROW_8E, checksum);
    wide.table[TABLE_NUMBER] = 255;
}

void write_corpus(uint64_t seed)
{
    chance_seed(seed);
    set_up_editions();
    reading_cases();
    writing_cases();
    shared_cases();
    edition_cases();
    length_cases();
    number_cases();
    places_cases();
    fresher_cases();
    differences_cases();
    plan_cases();
    front_cases();
    day_cases();
    tree_cases();
    nested_cases();
    template_cases();
}

void write_sweeps(void)
{
    set_up_editions();
    sizes_cases();
    behind_cases();
    written_lengths();
    sweep_cases();
}
