/* Self tests: card S, both sides of each edge, and what must hold for every case of a file.
   Written from document 01 alone, without a look at the library. */
#include <stdio.h>
#include <stdlib.h>
#include <string.h>

#include "casefile.h"
#include "chance.h"
#include "draft.h"
#include "selftest.h"

static unsigned long checks, failures;
static uint8_t terminal[TABLE_SIZE], issue[TABLE_SIZE];

void check(int holds, const char *what, const char *file, int line)
{
    checks++;
    if (!holds) {
        failures++;
        printf("%s:%d: does not hold: %s\n", file, line, what);
    }
}

uint64_t told(unsigned number, unsigned place, unsigned tag)
{
    return number | (uint64_t)place << 8 | (uint64_t)tag << 16;
}

static uint64_t told_7(unsigned place, unsigned tag, unsigned shortest, unsigned longest)
{
    return told(7, place, tag) | (uint64_t)shortest << 24 | (uint64_t)longest << 32;
}

uint8_t *exact_copy(const uint8_t *bytes, size_t length)
{
    uint8_t *copy = malloc(length > 0 ? length : 1);

    if (copy == NULL)
        abort();
    if (length > 0)
        memcpy(copy, bytes, length);
    return copy;
}

static int is_empty(const uint8_t *record)
{
    size_t i = 0;

    while (i < RECORD_SIZE && record[i] == 0)
        i++;
    return i == RECORD_SIZE;
}

static uint64_t read_under(const uint8_t *table, const uint8_t *image, size_t length, uint8_t *record)
{
    uint8_t *own_table = exact_copy(table, TABLE_SIZE);
    uint8_t *own_image = exact_copy(image, length);
    uint8_t *room = exact_copy(record, RECORD_SIZE);
    uint64_t answer;

    memset(room, 0xA5, RECORD_SIZE);
    answer = second_read(own_table, TABLE_SIZE, own_image, length, room, RECORD_SIZE);
    memcpy(record, room, RECORD_SIZE);
    if (answer != 0)
        CHECK(is_empty(record));
    free(own_table);
    free(own_image);
    free(room);
    return answer;
}

static uint64_t write_under(const uint8_t *table, const uint8_t *record, uint8_t *image, size_t length)
{
    uint8_t *own_table = exact_copy(table, TABLE_SIZE);
    uint8_t *own_record = exact_copy(record, RECORD_SIZE);
    uint8_t *buffer = exact_copy(image, length);
    uint64_t answer = second_write(own_table, TABLE_SIZE, own_record, RECORD_SIZE, buffer, length);

    if (answer != 0)
        CHECK(memcmp(buffer, image, length) == 0);
    memcpy(image, buffer, length);
    free(own_table);
    free(own_record);
    free(buffer);
    return answer;
}

static uint64_t read_draft(const uint8_t *table, const struct draft *draft)
{
    uint8_t room[RECORD_SIZE] = {0};

    return read_under(table, draft->image, IMAGE_SIZE, room);
}

static uint64_t read_card(const uint8_t *table, const uint8_t *record)
{
    struct draft draft;

    draft_card(&draft, record);
    return read_draft(table, &draft);
}

/* With the table's number on the record. */
static uint64_t write_record(const uint8_t *table, const uint8_t *record)
{
    uint8_t image[IMAGE_SIZE] = {0}, numbered[RECORD_SIZE];

    memcpy(numbered, record, RECORD_SIZE);
    put_number(numbered, table);
    return write_under(table, numbered, image, IMAGE_SIZE);
}

static void test_s(void)
{
    uint8_t record[RECORD_SIZE], image[IMAGE_SIZE] = {0}, back[RECORD_SIZE] = {0};
    struct draft draft;

    record_s(record);
    put_number(record, terminal);
    draft_card(&draft, record);
    CHECK(write_under(terminal, record, image, IMAGE_SIZE) == 0);
    CHECK(memcmp(image, draft.image, IMAGE_SIZE) == 0);
    CHECK(image[0] == 0x92 && image[30] == 0x60 && image[31] == 70);
    CHECK(image[99] == 0x8E && image[100] == 1 && image[101] == 0xF1);
    CHECK(image[102] == 0xC0 && image[103] == 0x81 && image[104] == 0x96);
    CHECK(image[105] == 0x20 && image[254] == 0x20 && image[255] == 0x00);
    CHECK(read_under(terminal, image, IMAGE_SIZE, back) == 0);
    CHECK(memcmp(back, record, RECORD_SIZE) == 0);
    CHECK(read_under(issue, image, IMAGE_SIZE, back) == told_7(61, 0x83, 4, 4));
    CHECK(write_record(issue, record) == told_7(0, 0x83, 4, 4));
    set_text(record, ROW_83, "1000");
    CHECK(write_under(issue, record, image, IMAGE_SIZE) == told(22, 0, 0));
    put_number(record, issue);
    CHECK(write_under(issue, record, image, IMAGE_SIZE) == 0);
    CHECK(image[31] == 73 && image[104] == 0xCB);
    CHECK(read_under(terminal, image, IMAGE_SIZE, back) == 0);
    CHECK(read_under(issue, image, IMAGE_SIZE, back) == 0);
}

static void test_fillers(void)
{
    static const struct { uint8_t length, start, first, second, spaces_end; } layouts[] = {
        {92, 124, 0x81, 0x80, 254}, {93, 125, 0x7F, 0x20, 253}, {94, 126, 0x7F, 0x20, 254},
        {127, 159, 0x5E, 0x20, 254}, {128, 161, 0x5C, 0x20, 254}, {212, 245, 0x08, 0x20, 254}
    };
    uint8_t record[RECORD_SIZE], image[IMAGE_SIZE] = {0}, back[RECORD_SIZE] = {0};
    size_t i;

    for (i = 0; i < COUNT(layouts); i++) {
        CHECK(chance_record_of(record, terminal, layouts[i].length));
        CHECK(write_under(terminal, record, image, IMAGE_SIZE) == 0);
        CHECK(image[layouts[i].start] == 0xC0 && image[layouts[i].start + 1] == layouts[i].first);
        CHECK(image[layouts[i].start + 2] == layouts[i].second);
        CHECK(image[layouts[i].spaces_end] == 0x20 && image[layouts[i].spaces_end + 1] == record[RECORD_LAST]);
        CHECK(image[255] == record[RECORD_LAST]);
        CHECK(read_under(terminal, image, IMAGE_SIZE, back) == 0);
        CHECK(memcmp(back, record, RECORD_SIZE) == 0);
    }
}

static void test_template_lengths(void)
{
    uint8_t record[RECORD_SIZE];

    CHECK(chance_record_of(record, terminal, 69) && read_card(terminal, record) == told(4, 31, 0));
    CHECK(write_record(terminal, record) == told(4, 0, 0));
    CHECK(chance_record_of(record, terminal, 213) && read_card(terminal, record) == told(4, 32, 0));
    CHECK(write_record(terminal, record) == told(4, 0, 0));
    CHECK(chance_record_of(record, terminal, 51) && write_record(terminal, record) == told(4, 0, 0));
    CHECK(!chance_record_of(record, terminal, 50));
    CHECK(chance_record_of(record, terminal, 214) && slot_in(record, ROW_90)[0] == 3);
    CHECK(!chance_record_of(record, terminal, 215));
    CHECK(!chance_record_of(record, issue, 213));
    CHECK(chance_record_of(record, issue, 212) && read_card(issue, record) == 0);
}

static void test_dates(void)
{
    static const struct { const char *value; unsigned number; } births[] = {
        {"00000000", 0}, {"00051950", 0}, {"05001950", 10}, {"31022000", 0}, {"32011950", 10}, {"01131950", 10},
        {"31121950", 0}, {"3213195A", 9}
    };
    static const struct { const char *value; unsigned number; } expiries[] = {
        {"0125", 0}, {"1225", 0}, {"0025", 10}, {"1325", 10}, {"13A5", 9}
    };
    uint8_t record[RECORD_SIZE];
    size_t i;

    for (i = 0; i < COUNT(births); i++) {
        record_full(record);
        set_text(record, ROW_88, births[i].value);
        CHECK((read_card(terminal, record) & 0xFF) == births[i].number);
        CHECK((write_record(issue, record) & 0xFF) == births[i].number);
    }
    for (i = 0; i < COUNT(expiries); i++) {
        record_full(record);
        set_text(record, ROW_8D, expiries[i].value);
        CHECK((read_card(issue, record) & 0xFF) == expiries[i].number);
        CHECK((write_record(terminal, record) & 0xFF) == expiries[i].number);
    }
}

static void test_countries(void)
{
    static const struct { const char *value; unsigned number; } countries[] = {
        {"D", 10}, {"d", 0}, {"D ", 0}, {"DE", 0}, {"DD", 0}, {"C", 0}, {"E", 0}, {"@", 9}, {"D@", 9}
    };
    uint8_t record[RECORD_SIZE];
    struct draft draft;
    size_t i;

    for (i = 0; i < COUNT(countries); i++) {
        record_full(record);
        set_text(record, ROW_8A, countries[i].value);
        CHECK((read_card(issue, record) & 0xFF) == countries[i].number);
        CHECK((write_record(issue, record) & 0xFF) == countries[i].number);
        CHECK((read_card(terminal, record) & 0xFF) == (countries[i].number == 9 ? 9 : 0));
        CHECK((write_record(terminal, record) & 0xFF) == (countries[i].number == 9 ? 9 : 0));
    }
    record_full(record);
    set_text(record, ROW_8A, "D");
    draft_card(&draft, record);
    CHECK(read_draft(issue, &draft) == told(10, (unsigned)draft.tag_at[ROW_8A] + 2, 0x8A));
    CHECK(write_record(issue, record) == told(10, 0, 0x8A));
}

static void test_towns_and_last_bytes(void)
{
    uint8_t record[RECORD_SIZE];

    record_s(record);
    set_text(record, ROW_83, "1000");
    set_text(record, ROW_8C, "A town of twenty-three.");
    CHECK(read_card(terminal, record) == 0 && write_record(terminal, record) == 0);
    CHECK(read_card(issue, record) == told_7(93, 0x8C, 2, 22));
    CHECK(write_record(issue, record) == told_7(0, 0x8C, 2, 22));
    set_text(record, ROW_8B, "12345");
    CHECK(write_record(terminal, record) == told(11, 0, 0x8B));
    CHECK(read_card(terminal, record) == told(11, 86, 0x8B));
    record_s(record);
    record[RECORD_LAST] = 0xFF;
    record[0] = 0x82;
    CHECK(read_card(terminal, record) == 0 && write_record(terminal, record) == 0);
    record[0] = 0xA2;
    CHECK(read_card(terminal, record) == told(17, 255, 0) && write_record(terminal, record) == told(3, 0, 0));
}

static void test_last_bytes_at_93(void)
{
    static const struct { uint8_t first, at_254, at_255; unsigned place; } ends[] = {
        {0x92, 0x00, 0x00, 0}, {0x82, 0xFF, 0xFF, 0}, {0x92, 0x55, 0x55, 255}, {0x92, 0x00, 0x55, 254},
        {0x82, 0x00, 0xFF, 254}, {0x92, 0xFF, 0xFF, 255}, {0x92, 0x20, 0x00, 254}
    };
    uint8_t record[RECORD_SIZE];
    struct draft draft;
    size_t i;

    CHECK(chance_record_of(record, terminal, 93));
    draft_card(&draft, record);
    for (i = 0; i < COUNT(ends); i++) {
        draft.image[0] = ends[i].first;
        draft.image[254] = ends[i].at_254;
        draft.image[255] = ends[i].at_255;
        CHECK(read_draft(terminal, &draft) == (ends[i].place == 0 ? 0 : told(17, ends[i].place, 0)));
    }
}

/* Each byte of the tail made wrong alone, with the filler of each form. */
static void test_tails(void)
{
    static const struct { uint8_t length, length_bytes; } layouts[] = {{70, 2}, {92, 2}, {93, 1}, {94, 1}, {212, 1}};
    uint8_t record[RECORD_SIZE];
    struct draft draft;
    size_t i, address;

    for (i = 0; i < COUNT(layouts); i++) {
        CHECK(chance_record_of(record, terminal, layouts[i].length));
        draft_card(&draft, record);
        for (address = draft.end; address < 256; address++) {
            size_t behind = layouts[i].length == 93 ? 254 : 255;
            size_t place = behind == 254 && address == 255 ? 254 : address;
            unsigned number = address == draft.end ? 14 : address <= draft.end + layouts[i].length_bytes ? 15
                            : address < behind ? 16 : 17;
            draft.image[address] ^= 0x55;
            CHECK(read_draft(terminal, &draft) == told(number, (unsigned)place, 0));
            draft.image[address] ^= 0x55;
        }
    }
}

static void test_slips(void)
{
    uint8_t record[RECORD_SIZE];
    struct draft draft;
    unsigned byte, taken = 0;

    record_s(record);
    draft_start(&draft);
    draft.long_form = 1;
    draft_rows(&draft, record, 0, OBJECT_COUNT);
    draft_checksum(&draft);
    draft_finish(&draft, record);
    CHECK(draft.image[31] == 0x81 && draft.image[32] == 0x46);
    CHECK(read_draft(terminal, &draft) == told(4, 32, 0));
    draft_card(&draft, record);
    draft.image[101] ^= 0x60 ^ 70;
    CHECK(read_draft(terminal, &draft) == told(13, 101, 0));
    for (byte = 0; byte < 256; byte++) {
        slot_of(record, ROW_80)[1] = (uint8_t)byte;
        taken += write_record(terminal, record) == 0;
        CHECK(read_card(terminal, record) == (write_record(terminal, record) == 0 ? 0 : told(9, 34, 0x80)));
    }
    CHECK(taken == 79);
    record_full(record);
    set_text(record, ROW_83, "12");
    CHECK(write_record(terminal, record) == told_7(0, 0x83, 1, 4));
    set_text(record, ROW_83, "123");
    CHECK(write_record(terminal, record) == told_7(0, 0x83, 1, 4));
    set_text(record, ROW_83, "2A00");
    CHECK(write_record(issue, record) == told(9, 1, 0x83));
}

static void test_sizes(void)
{
    uint8_t record[RECORD_SIZE + 1] = {0}, image[IMAGE_SIZE + 1] = {0}, before[RECORD_SIZE + 1];
    uint8_t room[TABLE_SIZE + 1] = {0};
    struct draft draft;

    record_s(record);
    draft_card(&draft, record);
    memset(before, 0x77, sizeof before);
    memcpy(image, draft.image, IMAGE_SIZE);
    CHECK(second_read(terminal, TABLE_SIZE, image, IMAGE_SIZE, before, RECORD_SIZE - 1) == told(20, 0, 0));
    CHECK(second_read(NULL, 0, NULL, 0, before, RECORD_SIZE + 1) == told(20, 0, 0));
    CHECK(before[0] == 0x77 && before[RECORD_SIZE] == 0x77);
    CHECK(second_read(NULL, 0, NULL, 0, before, RECORD_SIZE) == told(1, 0, 0) && is_empty(before));
    CHECK(second_read(NULL, 0, image, IMAGE_SIZE, before, RECORD_SIZE) == told(2, 0, 0));
    CHECK(second_read(terminal, TABLE_SIZE - 1, image, IMAGE_SIZE, before, RECORD_SIZE) == told(2, 0, 0));
    CHECK(second_read(terminal, TABLE_SIZE, image, IMAGE_SIZE + 1, before, RECORD_SIZE) == told(1, 0, 0));
    CHECK(second_write(terminal, TABLE_SIZE, record, RECORD_SIZE + 1, image, IMAGE_SIZE) == told(20, 0, 0));
    CHECK(second_write(NULL, 0, record, RECORD_SIZE, image, IMAGE_SIZE + 1) == told(20, 0, 0));
    CHECK(second_write(NULL, 0, record, RECORD_SIZE, image, IMAGE_SIZE) == told(2, 0, 0));
    CHECK(second_edition(1, room, TABLE_SIZE + 1) == told(20, 0, 0) && second_edition(9, NULL, 0) == told(20, 0, 0));
    CHECK(second_edition(0, room, TABLE_SIZE) == told(2, 0, 0));
    CHECK(second_edition(UINT64_C(0x100000001), room, TABLE_SIZE) == told(2, 0, 0) && room[0] == 0);
}

static void test_bad_rows(void)
{
    uint8_t table[TABLE_SIZE], record[RECORD_SIZE];
    size_t row;

    record_full(record);
    for (row = 0; row < ROW_COUNT; row++) {
        memcpy(table, issue, TABLE_SIZE);
        table[row * ROW_SIZE] = 2;
        CHECK(read_card(table, record) == told(2, 0, second_tags[row]));
        table[row * ROW_SIZE] = 1;
        table[row * ROW_SIZE + 1] = 8;
        CHECK(write_record(table, record) == told(2, 0, second_tags[row]));
        table[row * ROW_SIZE + 1] = RULE_RAW;
        CHECK((write_record(table, record) == 0) == (row == ROW_8E));
        table[row * ROW_SIZE + 1] = issue[row * ROW_SIZE + 1];
        table[row * ROW_SIZE + 2] |= 0x20;
        if (row < ROW_8E)
            table[row * ROW_SIZE + ROW_SIZE] = 9;
        CHECK(read_card(table, record) == told(2, 0, second_tags[row]));
    }
}

static uint64_t renumber_under(const uint8_t *table, uint8_t *record)
{
    uint8_t *own_table = exact_copy(table, TABLE_SIZE);
    uint8_t *own_record = exact_copy(record, RECORD_SIZE);
    uint64_t answer = second_renumber(own_table, TABLE_SIZE, own_record, RECORD_SIZE);

    CHECK(memcmp(own_record, record, RECORD_NUMBER) == 0);
    memcpy(record, own_record, RECORD_SIZE);
    free(own_table);
    free(own_record);
    return answer;
}

/* What the one edition reads and the other would write, the other writes as the same card with its number on. */
static void test_numbers(void)
{
    uint8_t table[TABLE_SIZE], record[RECORD_SIZE], image[IMAGE_SIZE] = {0};
    struct draft draft;
    unsigned number;

    record_full(record);
    draft_card(&draft, record);
    memcpy(table, terminal, TABLE_SIZE);
    for (number = 0; number < 256; number++) {
        table[TABLE_NUMBER] = (uint8_t)number;
        CHECK(read_under(issue, draft.image, IMAGE_SIZE, record) == 0 && record[RECORD_NUMBER] == 2);
        CHECK((write_under(table, record, image, IMAGE_SIZE) & 0xFF) == (number == 0 ? 2u : number == 2 ? 0u : 22u));
        CHECK(renumber_under(table, record) == (number == 0 ? told(2, 0, 0) : 0));
        CHECK(record[RECORD_NUMBER] == (number == 0 ? 2 : number));
        CHECK(number == 0 || write_under(table, record, image, IMAGE_SIZE) == 0);
        CHECK(number == 0 || memcmp(image, draft.image, IMAGE_SIZE) == 0);
    }
    set_text(record, ROW_83, "1");
    CHECK(renumber_under(issue, record) == told_7(0, 0x83, 4, 4) && record[RECORD_NUMBER] == 255);
    table[TABLE_NUMBER] = 0;
    CHECK(read_draft(table, &draft) == told(2, 0, 0));
    table[0] = 2;
    CHECK(read_draft(table, &draft) == told(2, 0, 0x80));
    CHECK(second_renumber(NULL, 0, record, RECORD_SIZE - 1) == told(20, 0, 0));
    CHECK(second_renumber(NULL, 0, record, RECORD_SIZE) == told(2, 0, 0) && record[RECORD_NUMBER] == 255);
}

/* An accepted image is the layout of its record, and a written one is accepted with its record. */
static void test_read_case(const struct test_case *test_case)
{
    const uint8_t *table = test_case->editions[0].table;
    const struct span *lent = &test_case->spans[0];
    uint8_t record[RECORD_SIZE] = {0}, image[IMAGE_SIZE] = {0};
    struct draft draft;

    if (read_under(table, lent->bytes, lent->length, record) != 0)
        return;
    draft_card(&draft, record);
    CHECK(memcmp(draft.image, lent->bytes, IMAGE_SIZE) == 0);
    CHECK(write_under(table, record, image, IMAGE_SIZE) == 0);
    CHECK(memcmp(image, lent->bytes, IMAGE_SIZE) == 0);
}

static void test_write_case(const struct test_case *test_case)
{
    const uint8_t *table = test_case->editions[0].table;
    size_t length = test_case->numbers[0];
    uint8_t record[RECORD_SIZE] = {0}, wiped[RECORD_SIZE], image[LENT_MAX];
    uint64_t answer;
    struct draft draft;
    size_t row;

    memset(image, test_case->fill, LENT_MAX);
    answer = write_under(table, test_case->record, image, length);
    draft_card(&draft, test_case->record);
    if (answer == told(22, 0, 0)) {
        CHECK(test_case->record[RECORD_NUMBER] != table[TABLE_NUMBER]);
        return;
    }
    if (answer != 0) {
        CHECK(length != IMAGE_SIZE || read_draft(table, &draft) != 0);
        return;
    }
    memcpy(wiped, test_case->record, RECORD_SIZE);
    for (row = 0; row < OBJECT_COUNT; row++) {
        uint8_t *slot = slot_of(wiped, row);
        memset(slot + 1 + slot[0], 0, (size_t)VALUE_MAX - slot[0]);
    }
    CHECK(memcmp(draft.image, image, IMAGE_SIZE) == 0);
    CHECK(read_under(table, image, IMAGE_SIZE, record) == 0);
    CHECK(memcmp(record, wiped, RECORD_SIZE) == 0);
}

static void test_file(const char *path)
{
    static struct test_case test_case;
    FILE *in = fopen(path, "rb");
    unsigned long count = 0;
    int got;

    CHECK(in != NULL);
    if (in == NULL)
        return;
    while ((got = get_case(in, &test_case)) == 1) {
        count++;
        if (test_case.kind == 'R')
            test_read_case(&test_case);
        if (test_case.kind == 'W')
            test_write_case(&test_case);
    }
    fclose(in);
    CHECK(got == 0 && count > 2000);
}

/* Under any edition, random bytes in a right card: accepted only if it is the layout of its record. */
static void test_random_damage(void)
{
    static struct test_case test_case;
    uint8_t *table = test_case.editions[0].table;
    struct span *lent = &test_case.spans[0];
    uint8_t record[RECORD_SIZE];
    struct draft draft;
    unsigned round;
    uint8_t byte;

    lent->length = IMAGE_SIZE;
    for (round = 0; round < 20000; round++) {
        if (round % 10 == 0)
            chance_table(table);
        if (round % 2 == 0)
            memcpy(table, round % 4 == 0 ? terminal : issue, TABLE_SIZE);
        if (!chance_record_of(record, table, 70 + chance(143)))
            continue;
        draft_card(&draft, record);
        CHECK(read_draft(table, &draft) == 0);
        byte = (uint8_t)chance(256);
        draft.image[chance(IMAGE_SIZE)] = byte;
        if (chance(2))
            draft_mend(&draft);
        memcpy(lent->bytes, draft.image, IMAGE_SIZE);
        test_read_case(&test_case);
    }
}

int main(int count, char **words)
{
    chance_seed(7);
    CHECK(second_edition(EDITION_TERMINAL, terminal, TABLE_SIZE) == 0);
    CHECK(second_edition(EDITION_ISSUE, issue, TABLE_SIZE) == 0);
    test_s();
    test_fillers();
    test_template_lengths();
    test_dates();
    test_countries();
    test_towns_and_last_bytes();
    test_last_bytes_at_93();
    test_tails();
    test_slips();
    test_sizes();
    test_bad_rows();
    test_numbers();
    test_random_damage();
    test_lengths();
    test_places();
    test_fresher();
    test_differences();
    test_plans();
    test_fronts();
    test_days();
    test_trees();
    test_formed();
    test_nested();
    for (int i = 1; i < count; i++)
        test_file(words[i]);
    printf("selftest: %lu checks, %lu failures\n", checks, failures);
    return failures == 0 ? 0 : 1;
}
