/* Written from document 01 alone, without a look at the library. */
#include "casefile.h"

#include <string.h>

#include "list.h"

/* Where the next field of each sort goes, or comes from. */
struct cursor {
    size_t edition;
    size_t span;
    size_t number;
};

static const struct kind *kind_of(uint8_t letter)
{
    const struct kind *kind = kinds;

    while (kind->letter != 0 && kind->letter != letter)
        kind++;
    return kind;
}

/* Getting */

static int get_bytes(FILE *in, uint8_t *bytes, size_t count)
{
    return fread(bytes, 1, count, in) == count;
}

static int get_length(FILE *in, size_t *length, size_t max)
{
    uint8_t bytes[2];

    if (!get_bytes(in, bytes, 2))
        return 0;
    *length = (size_t)bytes[0] << 8 | bytes[1];
    return *length <= max;
}

static int get_span(FILE *in, struct span *span, size_t max)
{
    return get_length(in, &span->length, max) && get_bytes(in, span->bytes, span->length);
}

static int get_words(FILE *in, struct test_case *test_case)
{
    uint8_t bytes[4];
    size_t i;

    if (!get_length(in, &test_case->word_count, WORDS_MAX))
        return 0;
    for (i = 0; i < test_case->word_count; i++) {
        if (!get_bytes(in, bytes, 4))
            return 0;
        test_case->words[i] = (uint32_t)bytes[0] << 24 | (uint32_t)bytes[1] << 16 | (uint32_t)bytes[2] << 8 | bytes[3];
    }
    return 1;
}

static int get_slot(FILE *in, uint8_t *slot)
{
    size_t count;
    uint8_t behind;

    if (!get_bytes(in, slot, 1))
        return 0;
    count = slot[0] < VALUE_MAX ? slot[0] : VALUE_MAX;
    if (!get_bytes(in, slot + 1, count))
        return 0;
    if (count == VALUE_MAX)
        return 1;
    if (!get_bytes(in, &behind, 1))
        return 0;
    memset(slot + 1 + count, behind, VALUE_MAX - count);
    return 1;
}

static int get_record(FILE *in, uint8_t *record)
{
    size_t i;

    if (!get_bytes(in, record, RECORD_SLOTS))
        return 0;
    for (i = 0; i < OBJECT_COUNT; i++) {
        if (!get_slot(in, record + RECORD_SLOTS + i * SLOT_SIZE))
            return 0;
    }
    return get_bytes(in, record + RECORD_NUMBER, 1);
}

static int get_edition(FILE *in, struct edition *edition)
{
    if (!get_bytes(in, &edition->selector, 1) || edition->selector > 2)
        return 0;
    if (edition->selector == 0)
        return get_bytes(in, edition->table, TABLE_SIZE);
    second_edition(edition->selector, edition->table, TABLE_SIZE);
    return 1;
}

static int get_field(FILE *in, struct test_case *test_case, char field, struct cursor *next)
{
    switch (field) {
    case 'e':
        return get_edition(in, &test_case->editions[next->edition++]);
    case 's':
        return get_span(in, &test_case->spans[next->span++], LENT_MAX);
    case 'l':
        return get_span(in, &test_case->spans[next->span++], LONG_MAX);
    case 'n':
        return get_length(in, &test_case->numbers[next->number++], LENT_MAX);
    case 'm':
        return get_length(in, &test_case->numbers[next->number++], LONG_MAX);
    case 'r':
        return get_record(in, test_case->record);
    case 'w':
        return get_words(in, test_case);
    default:
        return get_bytes(in, &test_case->fill, 1);
    }
}

int get_case(FILE *in, struct test_case *test_case)
{
    struct cursor next = {0, 0, 0};
    int first = getc(in);
    const struct kind *kind;
    const char *field;

    if (first == EOF)
        return 0;
    test_case->kind = (uint8_t)first;
    kind = kind_of(test_case->kind);
    if (kind->letter == 0)
        return -1;
    for (field = kind->fields; *field != '\0'; field++) {
        if (!get_field(in, test_case, *field, &next))
            return -1;
    }
    return 1;
}

/* Putting */

static void put_length(FILE *out, size_t length)
{
    putc((int)(length >> 8), out);
    putc((int)(length & 0xFF), out);
}

static void put_span(FILE *out, const struct span *span)
{
    put_length(out, span->length);
    fwrite(span->bytes, 1, span->length, out);
}

static void put_words(FILE *out, const struct test_case *test_case)
{
    size_t i;

    put_length(out, test_case->word_count);
    for (i = 0; i < test_case->word_count; i++) {
        put_length(out, test_case->words[i] >> 16);
        put_length(out, test_case->words[i] & 0xFFFF);
    }
}

/* Behind the value all bytes are taken to be as the last one. */
static void put_record(FILE *out, const uint8_t *record)
{
    size_t i;

    fwrite(record, 1, RECORD_SLOTS, out);
    for (i = 0; i < OBJECT_COUNT; i++) {
        const uint8_t *slot = record + RECORD_SLOTS + i * SLOT_SIZE;
        size_t count = slot[0] < VALUE_MAX ? slot[0] : VALUE_MAX;
        fwrite(slot, 1, 1 + count, out);
        if (count < VALUE_MAX)
            putc(slot[VALUE_MAX], out);
    }
    putc(record[RECORD_NUMBER], out);
}

static void put_edition(FILE *out, const struct edition *edition)
{
    putc(edition->selector, out);
    if (edition->selector == 0)
        fwrite(edition->table, 1, TABLE_SIZE, out);
}

static void put_field(FILE *out, const struct test_case *test_case, char field, struct cursor *next)
{
    switch (field) {
    case 'e':
        put_edition(out, &test_case->editions[next->edition++]);
        break;
    case 's':
    case 'l':
        put_span(out, &test_case->spans[next->span++]);
        break;
    case 'n':
    case 'm':
        put_length(out, test_case->numbers[next->number++]);
        break;
    case 'r':
        put_record(out, test_case->record);
        break;
    case 'w':
        put_words(out, test_case);
        break;
    default:
        putc(test_case->fill, out);
    }
}

void put_case(FILE *out, const struct test_case *test_case)
{
    struct cursor next = {0, 0, 0};
    const char *field;

    putc(test_case->kind, out);
    for (field = kind_of(test_case->kind)->fields; *field != '\0'; field++)
        put_field(out, test_case, *field, &next);
}

/* Answering */

void print_hex(FILE *out, const uint8_t *bytes, size_t count)
{
    size_t i;

    for (i = 0; i < count; i++)
        fprintf(out, "%02X", (unsigned)bytes[i]);
}

void print_room(FILE *out, const uint8_t *room, size_t length, uint8_t fill)
{
    size_t same = 0;

    while (same < length && room[same] == fill)
        same++;
    if (same == length)
        putc('=', out);
    else
        print_hex(out, room, length);
}

void print_filled(FILE *out, const uint8_t *room, size_t count, size_t length, uint8_t fill)
{
    unsigned changed = 0;
    size_t i;

    for (i = count; i < length; i++)
        changed += room[i] != fill;
    fprintf(out, "%u ", (unsigned)count);
    print_hex(out, room, count);
    fprintf(out, "%s %u", count == 0 ? "=" : "", changed);
}

uint64_t answer_case(const struct test_case *test_case, FILE *out)
{
    uint64_t answer;

    fprintf(out, "%c ", test_case->kind);
    answer = kind_of(test_case->kind)->answer(test_case, out);
    putc('\n', out);
    return answer;
}

void answer_cases(FILE *in, FILE *out)
{
    static struct test_case test_case;
    int got;

    while ((got = get_case(in, &test_case)) == 1)
        answer_case(&test_case, out);
    if (got < 0)
        fputs("END\n", out);
}

void tally_cases(FILE *in, FILE *out)
{
    static struct test_case test_case;
    static unsigned long counts[256][256];
    FILE *nowhere = fopen("/dev/null", "w");
    const struct kind *kind;
    unsigned number;
    int got;

    if (nowhere == NULL)
        return;
    while ((got = get_case(in, &test_case)) == 1)
        counts[test_case.kind][counted_by(answer_case(&test_case, nowhere))]++;
    fclose(nowhere);
    for (kind = kinds; kind->letter != 0; kind++) {
        for (number = 0; number < 256; number++) {
            if (counts[kind->letter][number] != 0)
                fprintf(out, "%c %3u %6lu\n", kind->letter, number, counts[kind->letter][number]);
        }
    }
    if (got < 0)
        fputs("END\n", out);
}

void pick_images(FILE *in, FILE *out, unsigned long every)
{
    static struct test_case test_case;
    unsigned long seen = 0;

    while (get_case(in, &test_case) == 1) {
        const struct span *image = &test_case.spans[0];
        if (test_case.kind == 'R' && image->length == IMAGE_SIZE && seen++ % every == 0)
            fwrite(image->bytes, 1, IMAGE_SIZE, out);
    }
}
