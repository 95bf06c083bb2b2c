/* The fresher of two cards.
   Written from the documents alone, without a look at the library. */
#include <string.h>

#include "answers.h"
#include "cases.h"
#include "chance.h"
#include "fresher.h"
#include "list.h"
#include "samples.h"

#define COUNT(list) (sizeof(list) / sizeof((list)[0]))

static long months_in(const uint8_t *room)
{
    unsigned long bits = (unsigned long)room[4] << 24 | (unsigned long)room[5] << 16 | (unsigned long)room[6] << 8 | room[7];

    return room[4] < 0x80 ? (long)bits : (long)(bits - 0x80000000ul) - 0x7FFFFFFFl - 1;
}

uint64_t answer_fresher(const struct test_case *test_case, FILE *out)
{
    const struct span *first = &test_case->spans[0], *second = &test_case->spans[1];
    uint8_t room[FRESHER_SIZE];
    uint64_t answer;

    memset(room, 0xA5, FRESHER_SIZE);
    answer = second_fresher(test_case->editions[0].table, TABLE_SIZE, first->bytes, first->length,
                            second->bytes, second->length, room, FRESHER_SIZE);
    print_answer(out, answer);
    fprintf(out, " %u %u %u %ld", (unsigned)room[0], (unsigned)room[1], (unsigned)room[2], months_in(room));
    return answer;
}

static void emit_spans(const struct edition *edition, const uint8_t *first, size_t first_length,
                       const uint8_t *second, size_t second_length)
{
    struct test_case *test_case = new_case('F');

    test_case->editions[0] = *edition;
    set_span(&test_case->spans[0], first, first_length);
    set_span(&test_case->spans[1], second, second_length);
    put_case(stdout, test_case);
}

static void emit_pair(const struct edition *edition, const uint8_t *first, const uint8_t *second)
{
    emit_spans(edition, first, IMAGE_SIZE, second, IMAGE_SIZE);
}

static void card_until(struct draft *draft, const char *validity, const char *name)
{
    uint8_t record[RECORD_SIZE];

    record_full(record);
    set_text(record, ROW_87, name);
    if (validity[0] == '\0')
        set_absent(record, ROW_8D);
    else
        set_text(record, ROW_8D, validity);
    draft_card(draft, record);
}

/* Every two of some validities, the ends of the century among them. */
static void validities(void)
{
    static const char *const values[] = {"0100", "1200", "0199", "1299", "0101", "1249", "0150", "0930", "1030"};
    static const char *const names[] = {"Alt", "von der Heide-Muster", "Neu_er 2"};
    struct draft first, second;
    size_t i, k;

    for (i = 0; i < COUNT(values); i++) {
        for (k = 0; k < COUNT(values); k++) {
            card_until(&first, values[i], names[i % 3]);
            card_until(&second, values[k], names[(i + k) % 3]);
            emit_pair(turn(i + k), first.image, second.image);
        }
    }
}

/* Every two of some samples, refused ones among them. */
static void pairs_of_samples(void)
{
    struct draft first, second;
    size_t i, k;

    for (i = 0; i < sample_count(); i += 2) {
        for (k = 0; k < sample_count(); k += 2) {
            make_sample(i, &first);
            make_sample(k, &second);
            emit_pair(&terminal, first.image, second.image);
        }
    }
}

/* The first card's refusal, then the second's, then 24. */
static void missing_validities(void)
{
    static const char *const values[] = {"", "0125", "1325"};
    struct draft first, second;
    size_t i, k;

    for (i = 0; i < COUNT(values); i++) {
        for (k = 0; k < COUNT(values); k++) {
            card_until(&first, values[i], "One");
            card_until(&second, values[k], "Two");
            emit_pair(&terminal, first.image, second.image);
            second.image[255] = 0x01;
            emit_pair(&terminal, first.image, second.image);
        }
    }
}

static void sizes(void)
{
    static const size_t lengths[] = {0, 255, 256, 257};
    uint8_t bytes[257] = {0};
    struct edition bad = terminal;
    struct draft draft;
    size_t i, k;

    bad.selector = 0;
    bad.table[TABLE_NUMBER] = 0;
    card_until(&draft, "0125", "Name");
    memcpy(bytes, draft.image, IMAGE_SIZE);
    for (i = 0; i < COUNT(lengths); i++) {
        for (k = 0; k < COUNT(lengths); k++) {
            emit_spans(&terminal, bytes, lengths[i], bytes, lengths[k]);
            if (i != 1 && k > 1)
                emit_spans(&bad, bytes, lengths[i], bytes, lengths[k]);
        }
    }
}

/* Row 8D with another rule, and row 87 optional. */
static void other_editions(void)
{
    static const struct rule_row digits = {1, RULE_DIGITS, 1u << 4}, text = {0, RULE_TEXT, 30u};
    static const struct rule_row optional_name = {0, RULE_TEXT, UINT32_C(0x1FFFFFFE)};
    struct edition edition = terminal;
    struct draft first, second;
    uint8_t record[RECORD_SIZE];

    edition.selector = 0;
    card_until(&first, "0125", "One");
    card_until(&second, "0326", "Two");
    row_to_table(edition.table, ROW_8D, digits);
    emit_pair(&edition, first.image, second.image);
    second.image[100] ^= 0x80;
    emit_pair(&edition, first.image, second.image);
    row_to_table(edition.table, ROW_8D, text);
    emit_pair(&edition, first.image, first.image);
    emit_pair(&wide, first.image, first.image);
    edition = terminal;
    edition.selector = 0;
    row_to_table(edition.table, ROW_87, optional_name);
    record_full(record);
    set_absent(record, ROW_87);
    draft_card(&second, record);
    emit_pair(&edition, first.image, second.image);
    emit_pair(&edition, second.image, first.image);
    emit_pair(&edition, second.image, second.image);
    emit_pair(&terminal, second.image, first.image);
}

static void random_pairs(void)
{
    static const size_t lengths[] = {70, 92, 93, 94, 127, 128, 212};
    uint8_t record[RECORD_SIZE];
    struct draft first, second;
    size_t i;

    for (i = 0; i < 3 * COUNT(lengths); i++) {
        if (!chance_record_of(record, terminal.table, lengths[i % COUNT(lengths)]))
            continue;
        draft_card(&first, record);
        if (!chance_record(record, issue.table))
            continue;
        draft_card(&second, record);
        emit_pair(&terminal, first.image, second.image);
        emit_pair(i % 3 == 0 ? &issue : &terminal, second.image, first.image);
    }
}

void fresher_cases(void)
{
    validities();
    pairs_of_samples();
    missing_validities();
    sizes();
    other_editions();
    random_pairs();
}
