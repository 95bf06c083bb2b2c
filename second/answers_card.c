/* Written from document 01 alone, without a look at the library. */
#include <string.h>

#include "answers.h"
#include "list.h"

static void print_record(FILE *out, const uint8_t *record)
{
    unsigned behind = 0;
    size_t i, k;

    print_hex(out, record, RECORD_SLOTS);
    for (i = 0; i < OBJECT_COUNT; i++) {
        const uint8_t *slot = record + RECORD_SLOTS + i * SLOT_SIZE;
        size_t count = slot[0] < VALUE_MAX ? slot[0] : VALUE_MAX;
        putc('.', out);
        print_hex(out, slot, 1 + count);
        for (k = 1 + count; k < SLOT_SIZE; k++)
            behind += slot[k] != 0;
    }
    fprintf(out, " %u", behind);
}

static unsigned count_not_0(const uint8_t *record)
{
    unsigned count = 0;
    size_t i;

    for (i = 0; i < RECORD_SIZE; i++)
        count += record[i] != 0;
    return count;
}

uint64_t answer_read(const struct test_case *test_case, FILE *out)
{
    const struct span *image = &test_case->spans[0];
    uint8_t record[RECORD_SIZE];
    uint64_t answer;

    memset(record, 0xA5, RECORD_SIZE);
    answer = second_read(test_case->editions[0].table, TABLE_SIZE, image->bytes, image->length, record, RECORD_SIZE);
    print_answer(out, answer);
    if (answer == 0) {
        putc(' ', out);
        print_record(out, record);
        fprintf(out, " %u", (unsigned)record[RECORD_NUMBER]);
    } else {
        fprintf(out, " %u", count_not_0(record));
    }
    return answer;
}

uint64_t answer_write(const struct test_case *test_case, FILE *out)
{
    uint8_t buffer[LENT_MAX];
    size_t length = test_case->numbers[0];
    uint64_t answer;

    memset(buffer, test_case->fill, LENT_MAX);
    answer = second_write(test_case->editions[0].table, TABLE_SIZE, test_case->record, RECORD_SIZE, buffer, length);
    print_answer(out, answer);
    putc(' ', out);
    print_room(out, buffer, length, test_case->fill);
    return answer;
}

uint64_t answer_renumber(const struct test_case *test_case, FILE *out)
{
    uint8_t record[RECORD_SIZE];
    unsigned changed = 0;
    uint64_t answer;
    size_t i;

    memcpy(record, test_case->record, RECORD_SIZE);
    answer = second_renumber(test_case->editions[0].table, TABLE_SIZE, record, RECORD_SIZE);
    for (i = 0; i < RECORD_NUMBER; i++)
        changed += record[i] != test_case->record[i];
    print_answer(out, answer);
    fprintf(out, " %u %u", (unsigned)record[RECORD_NUMBER], changed);
    return answer;
}
