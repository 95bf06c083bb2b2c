/* Written from document 01 alone, without a look at the library. */
#include "list.h"

#include "card.h"

static unsigned part(uint64_t answer, unsigned shift)
{
    return (unsigned)(answer >> shift & 0xFF);
}

void print_answer(FILE *out, uint64_t answer)
{
    fprintf(out, "%u %u %02X %u %u", part(answer, 0), part(answer, 8), part(answer, 16),
            part(answer, 24), part(answer, 32));
}

void list_refusal(FILE *out, uint64_t answer)
{
    fputs("REFUSED ", out);
    print_answer(out, answer);
    putc('\n', out);
}

static void list_record(FILE *out, const uint8_t *record)
{
    const uint8_t *slot = record + RECORD_SLOTS;
    size_t row;

    fputs("ACCEPTED\n", out);
    for (row = 0; row < OBJECT_COUNT; row++, slot += SLOT_SIZE) {
        if (slot[0] == 0)
            continue;
        fprintf(out, "%02X ", (unsigned)second_tags[row]);
        fwrite(slot + 1, 1, slot[0], out);
        putc('\n', out);
    }
}

void list_image(FILE *out, const uint8_t *table, const uint8_t *image, size_t image_len)
{
    uint8_t record[RECORD_SIZE];
    uint64_t answer = second_read(table, TABLE_SIZE, image, image_len, record, RECORD_SIZE);

    if (answer == 0)
        list_record(out, record);
    else
        list_refusal(out, answer);
}

unsigned counted_by(uint64_t answer)
{
    unsigned number = (unsigned)(answer & 0xFF);

    return number != 0 ? number : (unsigned)(answer >> 8 & 0xFF);
}
