/* Sweeps: each value of a byte where it stands, answered by a digest of all that the calls answer.
   Written from the documents alone, without a look at the library. */
#include <string.h>

#include "answers.h"
#include "cases.h"
#include "chance.h"
#include "list.h"

#define COUNT(list) (sizeof(list) / sizeof((list)[0]))

/* The digest */

static uint64_t fold(uint64_t digest, uint64_t number)
{
    return (digest * 16777619 + number) % UINT64_C(549755813881);
}

/* Four bytes a turn, high byte first, with 0 for what is not there. */
static uint64_t fold_bytes(uint64_t digest, const uint8_t *bytes, size_t count)
{
    size_t i, k;

    for (i = 0; i < count; i += 4) {
        uint64_t word = 0;
        for (k = i; k < i + 4; k++)
            word = word << 8 | (k < count ? bytes[k] : 0u);
        digest = fold(digest, word);
    }
    return digest;
}

static uint64_t fold_reading(uint64_t digest, const uint8_t *table, const uint8_t *image, size_t length)
{
    uint8_t record[RECORD_SIZE];
    uint64_t answer;

    memset(record, 0xA5, RECORD_SIZE);
    answer = second_read(table, TABLE_SIZE, image, length, record, RECORD_SIZE);
    return fold_bytes(fold(digest, answer), record, RECORD_SIZE);
}

static uint64_t fold_writing(uint64_t digest, const uint8_t *table, const uint8_t *record)
{
    uint8_t image[IMAGE_SIZE];
    uint64_t answer;

    memset(image, 0xA5, IMAGE_SIZE);
    answer = second_write(table, TABLE_SIZE, record, RECORD_SIZE, image, IMAGE_SIZE);
    return fold_bytes(fold(digest, answer), image, IMAGE_SIZE);
}

/* Answers */

static void print_digest(FILE *out, uint64_t digest)
{
    fprintf(out, " %llu", (unsigned long long)digest);
}

/* The exclusive or of the bytes from 30 to before the address goes there, if the image has it. */
static void mend(uint8_t *image, size_t length, size_t checksum_at)
{
    uint8_t sum = 0;
    size_t i;

    for (i = 30; i < checksum_at && i < length; i++)
        sum ^= image[i];
    if (checksum_at > 30 && checksum_at < length)
        image[checksum_at] = sum;
}

/* Each value at the address; the image comes back as it was but for the checksum. */
static uint64_t sweep_address(const uint8_t *table, uint8_t *image, size_t length, size_t address, size_t checksum_at)
{
    uint8_t before = image[address];
    uint64_t digest = 1;
    unsigned value;

    for (value = 0; value < 256; value++) {
        image[address] = (uint8_t)value;
        if (address != checksum_at)
            mend(image, length, checksum_at);
        digest = fold_reading(digest, table, image, length);
    }
    image[address] = before;
    mend(image, length, checksum_at);
    return digest;
}

static uint64_t print_reading(FILE *out, const struct test_case *test_case)
{
    uint8_t record[RECORD_SIZE];
    uint64_t answer = second_read(test_case->editions[0].table, TABLE_SIZE,
                                  test_case->spans[0].bytes, test_case->spans[0].length, record, RECORD_SIZE);

    print_answer(out, answer);
    return answer;
}

uint64_t answer_sweep(const struct test_case *test_case, FILE *out)
{
    struct span image = test_case->spans[0];
    uint64_t answer = print_reading(out, test_case);
    size_t address;

    for (address = test_case->numbers[0]; address < test_case->numbers[1] && address < image.length; address++)
        print_digest(out, sweep_address(test_case->editions[0].table, image.bytes, image.length, address,
                                        test_case->numbers[2]));
    return answer;
}

uint64_t answer_pair_sweep(const struct test_case *test_case, FILE *out)
{
    struct span image = test_case->spans[0];
    uint64_t answer = print_reading(out, test_case);
    size_t first = test_case->numbers[0];
    size_t then = test_case->numbers[1];
    unsigned value;

    for (value = 0; value < 256 && first < image.length && then < image.length; value++) {
        image.bytes[first] = (uint8_t)value;
        print_digest(out, sweep_address(test_case->editions[0].table, image.bytes, image.length, then,
                                        test_case->numbers[2]));
    }
    return answer;
}

static uint64_t sweep_index(const uint8_t *table, uint8_t *record, size_t index)
{
    uint8_t before = record[index];
    uint64_t digest = 1;
    unsigned value;

    for (value = 0; value < 256; value++) {
        record[index] = (uint8_t)value;
        digest = fold_writing(digest, table, record);
    }
    record[index] = before;
    return digest;
}

uint64_t answer_record_sweep(const struct test_case *test_case, FILE *out)
{
    const uint8_t *table = test_case->editions[0].table;
    uint8_t record[RECORD_SIZE], image[IMAGE_SIZE];
    uint64_t answer = second_write(table, TABLE_SIZE, test_case->record, RECORD_SIZE, image, IMAGE_SIZE);
    size_t index;

    print_answer(out, answer);
    memcpy(record, test_case->record, RECORD_SIZE);
    for (index = test_case->numbers[0]; index < test_case->numbers[1] && index < RECORD_SIZE; index++)
        print_digest(out, sweep_index(table, record, index));
    return answer;
}

static uint64_t sweep_table(uint8_t *table, size_t index, const struct span *image)
{
    uint8_t before = table[index];
    uint64_t digest = 1;
    unsigned value;

    for (value = 0; value < 256; value++) {
        table[index] = (uint8_t)value;
        digest = fold_reading(digest, table, image->bytes, image->length);
    }
    table[index] = before;
    return digest;
}

uint64_t answer_table_sweep(const struct test_case *test_case, FILE *out)
{
    uint8_t table[TABLE_SIZE];
    uint64_t answer = print_reading(out, test_case);
    size_t index;

    memcpy(table, test_case->editions[0].table, TABLE_SIZE);
    for (index = 0; index < TABLE_SIZE; index++)
        print_digest(out, sweep_table(table, index, &test_case->spans[0]));
    print_digest(out, fold_bytes(fold(1, 0), table, TABLE_SIZE));
    return answer;
}

/* Cases */

static void emit_image_sweep(uint8_t kind, const struct edition *edition, const struct draft *draft, size_t from,
                             size_t until, size_t checksum_at)
{
    struct test_case *test_case = new_case(kind);

    test_case->editions[0] = *edition;
    set_span(&test_case->spans[0], draft->image, IMAGE_SIZE);
    test_case->numbers[0] = from;
    test_case->numbers[1] = until;
    test_case->numbers[2] = checksum_at;
    put_case(stdout, test_case);
}

static void emit_sweep(const struct edition *edition, const struct draft *draft, size_t from, size_t until)
{
    emit_image_sweep('V', edition, draft, from, until, draft->checksum_at);
}

static void emit_pair_sweep(const struct edition *edition, const struct draft *draft, size_t first, size_t then)
{
    emit_image_sweep('M', edition, draft, first, then, draft->checksum_at);
}

static void emit_record_sweep(const struct edition *edition, const uint8_t *record, size_t from, size_t until)
{
    struct test_case *test_case = new_case('O');

    test_case->editions[0] = *edition;
    memcpy(test_case->record, record, RECORD_SIZE);
    put_number(test_case->record, edition->table);
    test_case->numbers[0] = from;
    test_case->numbers[1] = until;
    put_case(stdout, test_case);
}

static void emit_table_sweep(const struct edition *edition, const struct draft *draft)
{
    struct test_case *test_case = new_case('X');

    test_case->editions[0] = *edition;
    memcpy(test_case->editions[0].table, edition->table, TABLE_SIZE);
    set_span(&test_case->spans[0], draft->image, IMAGE_SIZE);
    put_case(stdout, test_case);
}

/* S with a status that both editions take: template length 73. */
static void record_short(uint8_t *record)
{
    record_s(record);
    set_text(record, ROW_83, "1000");
}

/* The same with a street of so many bytes: template length 75 and on. */
static void record_with_street(uint8_t *record, size_t length)
{
    uint8_t *slot = slot_of(record, ROW_89);

    record_short(record);
    slot[0] = (uint8_t)length;
    memset(slot + 1, 0x61, length);
}

/* Template length 93, the filler up to 253. */
static void record_two_last(uint8_t *record)
{
    record_with_street(record, 18);
    record[0] = 0x82;
    record[RECORD_LAST] = 0xFF;
}

/* The longest that both editions take: 212. */
static void record_longest(uint8_t *record)
{
    static const uint8_t lengths[OBJECT_COUNT] = {28, 7, 5, 12, 4, 1, 10, 8, 8, 28, 8, 28, 2, 6, 18, 4};
    size_t row;

    record_full(record);
    for (row = 0; row < OBJECT_COUNT; row++) {
        uint8_t *slot = slot_of(record, row);
        while (slot[0] < lengths[row])
            slot[++slot[0]] = 0x30;
    }
}

/* All objects, under rules of which the shipped editions have each only at one length or row. */
static void edition_of_rules(struct edition *edition)
{
    static const struct rule_row rows[ROW_COUNT] = {
        {1, RULE_CODE, UINT32_C(0x1FFFFFFE)}, {0, RULE_LEAD, UINT32_C(0x1FFFFFFE)}, {1, RULE_EXPIRY, 1 << 4},
        {0, RULE_BIRTH, 1 << 8}, {1, RULE_NOT_D, 1 << 1 | 1 << 4}, {0, RULE_DIGITS, UINT32_C(0x1FFFFFFE)},
        {1, RULE_TEXT, 1 << 28 | 1 << 3}, {0, RULE_CODE, 1 << 3}, {1, RULE_LEAD, 1 << 2 | 1 << 3},
        {0, RULE_NOT_D, UINT32_C(0x1FFFFFFE)}, {1, RULE_DIGITS, 1 << 8}, {0, RULE_CODE, 1 << 12},
        {1, RULE_NOT_D, 1 << 1}, {0, RULE_TEXT, UINT32_C(0x1FFFFFFE)}, {1, RULE_LEAD, 1 << 7},
        {0, RULE_EXPIRY, 1 << 4}, {1, RULE_RAW, 1 << 1}
    };
    size_t row;

    edition->selector = 0;
    for (row = 0; row < ROW_COUNT; row++)
        row_to_table(edition->table, row, rows[row]);
    edition->table[TABLE_NUMBER] = 7;
}

static void record_of_rules(uint8_t *record)
{
    static const char *const values[OBJECT_COUNT] = {
        "M}ller", "3213456", "1299", "00001961", "D000", "0", "a.b", "AZ_", "55", "DD", "12345678", "S Am Markt 1",
        "E", "~", "5000000", "0100"
    };
    size_t row;

    record_full(record);
    for (row = 0; row < OBJECT_COUNT; row++)
        set_text(record, row, values[row]);
}

/* Every address of cards with each form of length field and filler. */
static void whole_cards(void)
{
    static void (*const records[])(uint8_t *) = {record_short, record_full, record_two_last, record_longest};
    uint8_t record[RECORD_SIZE];
    struct draft draft;
    size_t i;

    for (i = 0; i < COUNT(records); i++) {
        records[i](record);
        draft_card(&draft, record);
        emit_sweep(&terminal, &draft, 0, IMAGE_SIZE);
        emit_sweep(&issue, &draft, 0, IMAGE_SIZE);
    }
    record_full(record);
    draft_card(&draft, record);
    emit_image_sweep('V', &terminal, &draft, 30, draft.end, 0);
}

/* Both sides of each edge of the forms: the filler's head and the last bytes, under each address 0 and last byte. */
static void ends_of_cards(void)
{
    static const uint8_t ends[][2] = {{0x82, 0x00}, {0x82, 0xFF}, {0x92, 0x00}, {0xA2, 0x00}, {0x92, 0xFF}, {0xA2, 0xFF}};
    static const size_t streets[] = {0, 17, 18, 19, 28};
    uint8_t record[RECORD_SIZE];
    struct draft draft;
    size_t i, k;

    for (i = 0; i < COUNT(streets); i++) {
        for (k = 0; k < COUNT(ends); k++) {
            record_with_street(record, streets[i]);
            record[0] = ends[k][0];
            record[RECORD_LAST] = ends[k][1];
            draft_card(&draft, record);
            emit_sweep(turn(k), &draft, 0, 1);
            emit_sweep(turn(i), &draft, 253, IMAGE_SIZE);
        }
        emit_sweep(turn(i), &draft, 30, 33);
        emit_sweep(&terminal, &draft, draft.end, draft.end + 4);
    }
}

/* The template's length in a form that it has not, laid out as that form would be, and any two bytes of the field. */
static void length_forms(void)
{
    static void (*const records[])(uint8_t *) = {record_short, record_full};
    uint8_t record[RECORD_SIZE];
    struct draft draft;
    size_t i, form;

    for (i = 0; i < COUNT(records); i++) {
        records[i](record);
        for (form = 1; form <= 4; form++) {
            draft_start(&draft);
            draft.long_form = form;
            draft_rows(&draft, record, 0, OBJECT_COUNT);
            draft_checksum(&draft);
            draft_finish(&draft, record);
            emit_sweep(&terminal, &draft, 30, 33 + form);
            emit_sweep(&issue, &draft, 30, 33 + form);
        }
        draft_card(&draft, record);
        emit_pair_sweep(turn(i), &draft, 31, 32);
    }
}

/* Any two bytes of the filler's length, and of two last bytes. */
static void pairs_of_the_tail(void)
{
    static const size_t streets[] = {17, 18, 19};
    uint8_t record[RECORD_SIZE];
    struct draft draft;
    size_t i;

    for (i = 0; i < COUNT(streets); i++) {
        record_with_street(record, streets[i]);
        draft_card(&draft, record);
        emit_pair_sweep(turn(i), &draft, draft.end + 1, draft.end + 2);
    }
    record_two_last(record);
    draft_card(&draft, record);
    emit_pair_sweep(&terminal, &draft, 254, 255);
    draft.image[0] = 0xA2;
    emit_pair_sweep(&issue, &draft, 254, 255);
}

/* Dates, and values whose first byte is wrong: 9 at any byte comes before 10. */
static void values(void)
{
    static const uint8_t rows[] = {ROW_80, ROW_81, ROW_8F, ROW_82, ROW_85, ROW_86, ROW_89, ROW_8C, ROW_8D};
    struct edition edition;
    uint8_t record[RECORD_SIZE];
    struct draft draft;
    size_t i;

    record_full(record);
    draft_card(&draft, record);
    emit_pair_sweep(&terminal, &draft, draft.tag_at[ROW_88] + 2, draft.tag_at[ROW_88] + 3);
    emit_pair_sweep(&issue, &draft, draft.tag_at[ROW_88] + 4, draft.tag_at[ROW_88] + 5);
    emit_pair_sweep(&issue, &draft, draft.tag_at[ROW_8D] + 2, draft.tag_at[ROW_8D] + 3);
    edition_of_rules(&edition);
    record_of_rules(record);
    draft_card(&draft, record);
    emit_sweep(&edition, &draft, 30, draft.end);
    for (i = 0; i < COUNT(rows); i++) {
        size_t start = draft.tag_at[rows[i]] + 2;
        struct draft changed = draft;
        changed.image[start] = 0x39;
        emit_sweep(&edition, &changed, start, start + slot_in(record, rows[i])[0]);
    }
}

/* Each day with each month, at both sides of the edges: the day's second digit is swept. */
static void days_of_birth(void)
{
    uint8_t record[RECORD_SIZE];
    struct draft draft;
    unsigned month, tens;

    record_full(record);
    for (month = 0; month < 20; month++) {
        for (tens = 0; tens < 4; tens++) {
            uint8_t *value = slot_of(record, ROW_88) + 1;
            value[0] = (uint8_t)(0x30 + tens);
            value[2] = (uint8_t)(0x30 + month / 10);
            value[3] = (uint8_t)(0x30 + month % 10);
            draft_card(&draft, record);
            emit_sweep(turn(month), &draft, draft.tag_at[ROW_88] + 3, draft.tag_at[ROW_88] + 4);
        }
    }
}

static void records_written(void)
{
    static const uint8_t rows[] = {ROW_80, ROW_81, ROW_8F, ROW_82, ROW_85, ROW_86, ROW_89, ROW_8C, ROW_8D};
    static const uint8_t first[] = {0x82, 0xA2};
    struct edition edition;
    uint8_t record[RECORD_SIZE], changed[RECORD_SIZE];
    size_t i;

    record_full(record);
    emit_record_sweep(&issue, record, 0, RECORD_SIZE);
    record_two_last(record);
    emit_record_sweep(&terminal, record, 0, RECORD_SIZE);
    record_longest(record);
    for (i = 0; i < COUNT(first); i++) {
        record[0] = first[i];
        emit_record_sweep(turn(i), record, 0, RECORD_SLOTS);
    }
    edition_of_rules(&edition);
    record_of_rules(record);
    emit_record_sweep(&edition, record, 0, RECORD_SIZE);
    for (i = 0; i < COUNT(rows); i++) {
        size_t start = RECORD_SLOTS + (size_t)rows[i] * SLOT_SIZE + 1;
        memcpy(changed, record, RECORD_SIZE);
        changed[start] = 0x39;
        emit_record_sweep(&edition, changed, start, start + record[start - 1]);
    }
}

static void tables(void)
{
    struct edition edition;
    uint8_t record[RECORD_SIZE];
    struct draft draft;

    record_full(record);
    draft_card(&draft, record);
    emit_table_sweep(&terminal, &draft);
    emit_table_sweep(&issue, &draft);
    edition_of_rules(&edition);
    record_of_rules(record);
    draft_card(&draft, record);
    emit_table_sweep(&edition, &draft);
}

void sweep_cases(void)
{
    whole_cards();
    ends_of_cards();
    length_forms();
    pairs_of_the_tail();
    values();
    days_of_birth();
    records_written();
    tables();
}
