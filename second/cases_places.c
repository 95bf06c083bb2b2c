/* Places and the host's command.
   Written from the documents alone, without a look at the library. */
#include <string.h>

#include "answers.h"
#include "cases.h"
#include "chance.h"
#include "list.h"
#include "places.h"

#define COUNT(list) (sizeof(list) / sizeof((list)[0]))

uint64_t answer_places(const struct test_case *test_case, FILE *out)
{
    const struct span *image = &test_case->spans[0];
    uint8_t room[PLACES_SIZE];
    uint64_t answer;

    memset(room, 0xA5, PLACES_SIZE);
    answer = second_places(test_case->editions[0].table, TABLE_SIZE, image->bytes, image->length, room, PLACES_SIZE);
    print_answer(out, answer);
    putc(' ', out);
    print_hex(out, room, PLACES_SIZE);
    return answer;
}

uint64_t answer_host(const struct test_case *test_case, FILE *out)
{
    const struct span *image = &test_case->spans[0], *command = &test_case->spans[1];
    size_t length = test_case->numbers[0];
    uint8_t room[LENT_MAX];
    uint64_t answer;

    memset(room, test_case->fill, LENT_MAX);
    answer = second_host(test_case->editions[0].table, TABLE_SIZE, image->bytes, image->length,
                         command->bytes, command->length, room, length);
    print_answer(out, answer);
    putc(' ', out);
    print_filled(out, room, (size_t)(answer >> 40), length, test_case->fill);
    return answer;
}

/* Places */

static void emit_places(const struct edition *edition, const uint8_t *image, size_t length)
{
    struct test_case *test_case = new_case('P');

    test_case->editions[0] = *edition;
    set_span(&test_case->spans[0], image, length);
    put_case(stdout, test_case);
}

static void places_of_record(const struct edition *edition, const uint8_t *record)
{
    struct draft draft;

    draft_card(&draft, record);
    emit_places(edition, draft.image, IMAGE_SIZE);
}

static void places_of_shapes(void)
{
    static const uint8_t lengths[] = {69, 70, 71, 92, 93, 94, 127, 128, 129, 211, 212, 213};
    uint8_t record[RECORD_SIZE];
    size_t i, row;

    for (i = 0; i < COUNT(lengths); i++) {
        if (chance_record_of(record, turn(i)->table, lengths[i]))
            places_of_record(turn(i), record);
        if (chance_record_of(record, wide.table, lengths[i]))
            places_of_record(&wide, record);
    }
    for (row = 0; row < OBJECT_COUNT; row++) {
        record_full(record);
        set_absent(record, row);
        places_of_record(row % 2 ? &terminal : &wide, record);
    }
    memset(record + RECORD_SLOTS, 0, RECORD_NUMBER - RECORD_SLOTS);
    chance_fill(record, wide.table, ROW_80, 28);
    chance_fill(record, wide.table, ROW_8C, 28);
    chance_fill(record, wide.table, ROW_8D, 28);
    places_of_record(&wide, record);
}

/* A refusal of every sort: the places are zeros. */
static void places_refused(void)
{
    static const uint8_t addresses[] = {0, 22, 31, 33, 34, 60, 90, 120, 150, 164, 165, 166, 200, 255};
    struct edition bad = wide;
    uint8_t record[RECORD_SIZE];
    uint8_t long_image[257] = {0};
    struct draft draft;
    size_t i;

    record_s(record);
    places_of_record(&issue, record);
    record_full(record);
    draft_card(&draft, record);
    memcpy(long_image, draft.image, IMAGE_SIZE);
    emit_places(&terminal, long_image, 257);
    emit_places(&terminal, long_image, 255);
    emit_places(&terminal, long_image, 0);
    bad.table[TABLE_NUMBER] = 0;
    emit_places(&bad, long_image, IMAGE_SIZE);
    emit_places(&bad, long_image, 255);
    bad.table[ROW_SIZE] = 2;
    emit_places(&bad, long_image, IMAGE_SIZE);
    for (i = 0; i < COUNT(addresses); i++) {
        struct draft damaged = draft;
        damaged.image[addresses[i]] ^= 0x41;
        emit_places(turn(i), damaged.image, IMAGE_SIZE);
    }
}

static void random_places(void)
{
    struct edition edition = wide;
    uint8_t record[RECORD_SIZE];
    size_t i;

    for (i = 0; i < 16; i++) {
        do
            chance_table(edition.table);
        while (!chance_record(record, edition.table));
        places_of_record(&edition, record);
    }
}

/* The host's command */

struct request {
    uint8_t bytes[8];
    size_t length;
};

static struct request ask(size_t offset, size_t count)
{
    struct request request = {{0x00, 0xB0, 0, 0, 0, 0, 0, 0}, 5};

    request.bytes[2] = (uint8_t)(offset >> 8);
    request.bytes[3] = (uint8_t)offset;
    request.bytes[4] = (uint8_t)count;
    return request;
}

static void emit_host(const struct edition *edition, const uint8_t *image, struct request request, size_t room)
{
    struct test_case *test_case = new_case('H');

    test_case->editions[0] = *edition;
    set_span(&test_case->spans[0], image, IMAGE_SIZE);
    set_span(&test_case->spans[1], request.bytes, request.length);
    test_case->numbers[0] = room;
    test_case->fill = chance_room_byte();
    put_case(stdout, test_case);
}

/* Both sides of the template's end, from the start, from within and from the end. */
static void ranges(const struct edition *edition, const uint8_t *image, size_t total)
{
    const size_t offsets[] = {0, 1, total - 1, total, total + 1, total / 2, 255, 256, 65535 - 254, 65535};
    size_t i;

    for (i = 0; i < COUNT(offsets); i++) {
        size_t left = offsets[i] < total ? total - offsets[i] : 0;
        emit_host(edition, image, ask(offsets[i], 1), HOST_SIZE);
        if (left > 1)
            emit_host(edition, image, ask(offsets[i], left), HOST_SIZE);
        emit_host(edition, image, ask(offsets[i], left < 255 ? left + 1 : 255), HOST_SIZE);
        if (i % 3 == 0)
            emit_host(edition, image, ask(offsets[i], 255), HOST_SIZE);
    }
}

static void ranges_of_templates(void)
{
    static const uint8_t lengths[] = {70, 93, 127, 128, 212};
    uint8_t record[RECORD_SIZE];
    struct draft draft;
    size_t i;

    for (i = 0; i < COUNT(lengths); i++) {
        if (!chance_record_of(record, terminal.table, lengths[i]))
            continue;
        draft_card(&draft, record);
        ranges(&terminal, draft.image, draft.end - 30);
    }
}

static void commands(const uint8_t *image)
{
    static const uint8_t heads[][2] = {
        {0x00, 0xB1}, {0x00, 0xAF}, {0x01, 0xB0}, {0x80, 0xB0}, {0x00, 0x00}, {0xB0, 0x00}, {0xFF, 0xFF}, {0x00, 0xB0}
    };
    struct request request;
    size_t i;

    for (i = 0; i <= 8; i++) {
        request = ask(2, 3);
        request.length = i;
        emit_host(&terminal, image, request, HOST_SIZE);
    }
    for (i = 0; i < COUNT(heads); i++) {
        request = ask(0, 4);
        memcpy(request.bytes, heads[i], 2);
        emit_host(&terminal, image, request, HOST_SIZE);
    }
    emit_host(&issue, image, ask(0, 0), HOST_SIZE);
    emit_host(&issue, image, ask(65535, 0), HOST_SIZE);
}

static void rooms(const uint8_t *image)
{
    static const size_t lengths[] = {0, 1, 2, 255, 256, 258, 512, 600};
    size_t i;

    for (i = 0; i < COUNT(lengths); i++) {
        emit_host(&terminal, image, ask(0, 10), lengths[i]);
        emit_host(&terminal, image, ask(0, 0), lengths[i]);
    }
}

/* 20, '6700', '6D00', '6900', '6A00': one thing less is wrong each time. */
static void order_of_answers(const uint8_t *image)
{
    uint8_t damaged[IMAGE_SIZE];
    struct edition bad = wide;
    struct request request;
    size_t step;

    bad.table[TABLE_NUMBER] = 0;
    for (step = 0; step < 7; step++) {
        memcpy(damaged, image, IMAGE_SIZE);
        damaged[40] ^= step < 4 ? 0x80 : 0x00;
        request = ask(step < 6 ? 200 : 2, step < 2 ? 0 : 9);
        request.bytes[1] = step < 3 ? 0xB2 : 0xB0;
        request.length = step < 1 ? 4 : 5;
        emit_host(step == 4 ? &bad : &terminal, damaged, request, step == 0 ? 256 : HOST_SIZE);
        request.length = 6;
        emit_host(&terminal, damaged, request, HOST_SIZE);
    }
}

void places_cases(void)
{
    uint8_t record[RECORD_SIZE];
    struct draft draft;

    places_of_shapes();
    places_refused();
    random_places();
    record_full(record);
    draft_card(&draft, record);
    ranges_of_templates();
    commands(draft.image);
    rooms(draft.image);
    order_of_answers(draft.image);
    record_s(record);
    draft_card(&draft, record);
    emit_host(&terminal, draft.image, ask(0, 72), HOST_SIZE);
    emit_host(&issue, draft.image, ask(0, 72), HOST_SIZE);
}
