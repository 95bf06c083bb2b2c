/* Length fields.
   Written from the documents alone, without a look at the library. */
#include "answers.h"
#include "cases.h"
#include "chance.h"
#include "length.h"
#include "list.h"

#define COUNT(list) (sizeof(list) / sizeof((list)[0]))

uint64_t answer_length(const struct test_case *test_case, FILE *out)
{
    const struct span *field = &test_case->spans[0];
    uint64_t answer = second_length(field->bytes, field->length);

    print_answer(out, answer);
    fprintf(out, " %u %u", (unsigned)(answer >> 40 & 0xFFFF), (unsigned)(answer >> 56));
    return answer;
}

static void emit_field(const uint8_t *bytes, size_t length)
{
    struct test_case *test_case = new_case('L');

    set_span(&test_case->spans[0], bytes, length);
    put_case(stdout, test_case);
}

/* Every first byte, alone and with others behind it. */
static void first_bytes(void)
{
    uint8_t bytes[4] = {0};
    unsigned byte;

    for (byte = 0; byte < 256; byte++) {
        bytes[0] = (uint8_t)byte;
        bytes[1] = (uint8_t)(0x80 + chance(0x80));
        bytes[2] = (uint8_t)chance(256);
        emit_field(bytes, byte % 8 < 2 || (byte >= 0x7E && byte <= 0x84) ? 1 : 1 + chance(4));
    }
}

/* The bytes behind '81' and '82', at both sides of each edge, whole and cut short. */
static void later_bytes(void)
{
    static const uint8_t fields[][3] = {
        {0x81, 0x00, 0x00}, {0x81, 0x01, 0x00}, {0x81, 0x7E, 0xFF}, {0x81, 0x7F, 0x80}, {0x81, 0x80, 0x00},
        {0x81, 0x81, 0x00}, {0x81, 0xFE, 0x00}, {0x81, 0xFF, 0x00}, {0x82, 0x00, 0x00}, {0x82, 0x00, 0x7F},
        {0x82, 0x00, 0x80}, {0x82, 0x00, 0xFE}, {0x82, 0x00, 0xFF}, {0x82, 0x01, 0x00}, {0x82, 0x01, 0x01},
        {0x82, 0x7F, 0xFF}, {0x82, 0x80, 0x00}, {0x82, 0xFF, 0x00}, {0x82, 0xFF, 0xFE}, {0x82, 0xFF, 0xFF},
        {0x80, 0x00, 0x00}, {0x83, 0x01, 0x00}, {0x84, 0x00, 0x01}, {0xFF, 0xFF, 0xFF}, {0x7F, 0x81, 0x82}
    };
    uint8_t bytes[5] = {0};
    size_t i, length;

    emit_field(bytes, 0);
    for (i = 0; i < COUNT(fields); i++) {
        for (length = 0; length < 3; length++)
            bytes[length] = fields[i][length];
        bytes[3] = (uint8_t)chance(256);
        bytes[4] = (uint8_t)chance(256);
        for (length = 2; length <= 3; length++)
            emit_field(bytes, length);
        if (i % 4 == 0)
            emit_field(bytes, 5);
    }
}

void length_cases(void)
{
    later_bytes();
    first_bytes();
}
