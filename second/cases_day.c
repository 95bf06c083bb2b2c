/* The day file, with a few cards; files of many are compared elsewhere.
   Written from the documents alone, without a look at the library. */
#include <string.h>

#include "answers.h"
#include "cases.h"
#include "chance.h"
#include "day.h"
#include "list.h"

#define COUNT(list) (sizeof(list) / sizeof((list)[0]))

/* Answers */

static void print_value(FILE *out, uint64_t answer)
{
    print_answer(out, answer);
    fprintf(out, " %u", (unsigned)(answer >> 40));
}

uint64_t answer_day_count(const struct test_case *test_case, FILE *out)
{
    uint64_t answer = second_day_count(test_case->spans[0].bytes, test_case->spans[0].length);

    print_value(out, answer);
    return answer;
}

uint64_t answer_day_image(const struct test_case *test_case, FILE *out)
{
    uint64_t answer = second_day_image(test_case->spans[0].bytes, test_case->spans[0].length, test_case->numbers[0]);

    print_value(out, answer);
    return answer;
}

uint64_t answer_day_find(const struct test_case *test_case, FILE *out)
{
    uint64_t answer = second_day_find(test_case->spans[0].bytes, test_case->spans[0].length,
                                      test_case->spans[1].bytes, test_case->spans[1].length);

    print_value(out, answer);
    return answer;
}

/* With 41 the value is a position and nothing was filled. */
static void print_file(FILE *out, uint64_t answer, const uint8_t *room, const struct test_case *test_case)
{
    print_value(out, answer);
    putc(' ', out);
    print_filled(out, room, (answer & 0xFF) == 0 ? (size_t)(answer >> 40) : 0, test_case->numbers[0], test_case->fill);
}

uint64_t answer_day_add(const struct test_case *test_case, FILE *out)
{
    uint8_t room[LONG_MAX];
    uint64_t answer;

    memset(room, test_case->fill, LONG_MAX);
    answer = second_day_add(test_case->spans[0].bytes, test_case->spans[0].length,
                            test_case->spans[1].bytes, test_case->spans[1].length, room, test_case->numbers[0]);
    print_file(out, answer, room, test_case);
    return answer;
}

uint64_t answer_day_build(const struct test_case *test_case, FILE *out)
{
    uint8_t room[LONG_MAX];
    uint64_t answer;

    memset(room, test_case->fill, LONG_MAX);
    answer = second_day_build(test_case->spans[0].bytes, test_case->spans[0].length, room, test_case->numbers[0]);
    print_file(out, answer, room, test_case);
    return answer;
}

/* Days */

enum { FEW = 6 };

struct day {
    size_t count;
    uint8_t images[(FEW + 1) * IMAGE_SIZE];
    size_t length;
    uint8_t file[LONG_MAX];
};

static void card_of(uint8_t *image, const char *number, size_t which)
{
    uint8_t record[RECORD_SIZE];
    struct draft draft;

    if (which % 2 == 0)
        record_full(record);
    else
        record_s(record);
    set_text(record, ROW_82, number);
    record[RECORD_FREE] = (uint8_t)which;
    draft_card(&draft, record);
    memcpy(image, draft.image, IMAGE_SIZE);
}

static void finish(struct day *day)
{
    day->length = (size_t)(second_day_build(day->images, day->count * IMAGE_SIZE, day->file, LONG_MAX) >> 40);
}

/* So many of these numbers, from one on. */
static void make_day(struct day *day, size_t count, size_t from)
{
    static const char *const numbers[] = {
        "123456789012", "123456", "1234560", "999999", "123456", "000000000000", "000000", "12345678901", "123456"
    };
    size_t i;

    memset(day, 0, sizeof *day);
    day->count = count;
    for (i = 0; i < count; i++)
        card_of(day->images + i * IMAGE_SIZE, numbers[(from + i) % COUNT(numbers)], i);
    finish(day);
}

static uint8_t *index_in(struct day *day)
{
    return day->file + day->count * IMAGE_SIZE;
}

static uint8_t *trailer_in(struct day *day)
{
    return day->file + day->length - TRAILER_SIZE;
}

static void emit_count(const struct day *day, size_t length)
{
    struct test_case *test_case = new_case('K');

    set_span(&test_case->spans[0], day->file, length);
    put_case(stdout, test_case);
}

static void emit_position(const struct day *day, size_t position)
{
    struct test_case *test_case = new_case('I');

    set_span(&test_case->spans[0], day->file, day->length);
    test_case->numbers[0] = position;
    put_case(stdout, test_case);
}

static void emit_find(const struct day *day, const char *number)
{
    struct test_case *test_case = new_case('Q');

    set_span(&test_case->spans[0], day->file, day->length);
    set_span(&test_case->spans[1], (const uint8_t *)number, strlen(number));
    put_case(stdout, test_case);
}

static void emit_add(const struct day *day, const uint8_t *card, size_t card_length, size_t room)
{
    struct test_case *test_case = new_case('A');

    set_span(&test_case->spans[0], day->file, day->length);
    set_span(&test_case->spans[1], card, card_length);
    test_case->numbers[0] = room;
    test_case->fill = chance_room_byte();
    put_case(stdout, test_case);
}

static void emit_build(const struct day *day, size_t length, size_t room)
{
    struct test_case *test_case = new_case('B');

    set_span(&test_case->spans[0], day->images, length);
    test_case->numbers[0] = room;
    test_case->fill = chance_room_byte();
    put_case(stdout, test_case);
}

/* Right days, of each size, through every call. */
static void right_days(void)
{
    struct day day, next;
    size_t count;

    for (count = 0; count <= FEW; count++) {
        make_day(&day, count, 2 * count);
        make_day(&next, count + 1, 2 * count);
        emit_build(&day, count * IMAGE_SIZE, day.length + count % 2);
        emit_add(&day, next.images + count * IMAGE_SIZE, IMAGE_SIZE, next.length + count % 3);
        emit_count(&day, day.length);
        emit_position(&day, 0);
        if (count > 1)
            emit_position(&day, count - 1);
        emit_position(&day, count);
        emit_find(&day, "123456");
    }
    emit_position(&day, 255);
    emit_position(&day, 256);
    emit_position(&day, 600);
}

static void numbers(void)
{
    static const char *const values[] = {
        "123456", "1234560", "123456789012", "12345678901", "000000", "000000000000", "00000000000", "1234567", "999999",
        "", "1", "12345", "1234567890123", "123456 ", "123456      ", "12345A", "abcdef", "12345:", "/23456", "0"
    };
    struct day day;
    size_t i;

    make_day(&day, 3, 1);
    for (i = 0; i < COUNT(values); i++)
        emit_find(&day, values[i]);
    make_day(&day, 3, 5);
    for (i = 0; i < 9; i++)
        emit_find(&day, values[i]);
    make_day(&day, 0, 0);
    emit_find(&day, values[0]);
    emit_find(&day, "x");
}

/* 40: the length, each byte of the trailer, and an index byte alone. */
static void wrong_frames(void)
{
    struct day day;
    size_t count, i;

    for (count = 0; count <= 2; count++) {
        make_day(&day, count, count);
        emit_count(&day, day.length - 1);
        emit_count(&day, day.length + 1);
        emit_count(&day, day.length > 270 ? day.length - 270 : 0);
        for (i = 0; i < TRAILER_SIZE; i++) {
            uint8_t mask = (uint8_t)(i == 5 ? 3u : 1u << i);
            trailer_in(&day)[i] ^= mask;
            emit_count(&day, day.length);
            trailer_in(&day)[i] ^= mask;
        }
    }
    for (i = 0; i < TRAILER_SIZE; i++)
        emit_count(&day, i);
    trailer_in(&day)[5] = 201;
    emit_count(&day, day.length);
    make_day(&day, 1, 0);
    index_in(&day)[3] ^= 0x01;
    emit_count(&day, day.length);
    make_day(&day, 0, 0);
    trailer_in(&day)[5] = 0xFF;
    trailer_in(&day)[4] = 0xFF;
    emit_count(&day, day.length);
}

/* 40: the trailer fits all but the length, with a byte more before it, or with one less, where the trailer's first stands for
   the index's last. */
static void wrong_lengths(void)
{
    struct day day;
    size_t count;

    for (count = 0; count <= 2; count++) {
        make_day(&day, count, count);
        memmove(trailer_in(&day) + 1, trailer_in(&day), TRAILER_SIZE);
        day.length++;
        emit_count(&day, day.length);
        emit_position(&day, 0);
        emit_find(&day, "123456");
    }
    make_day(&day, 1, 1);
    memmove(trailer_in(&day) - 1, trailer_in(&day), TRAILER_SIZE);
    emit_count(&day, day.length - 1);
}

/* 42: two entries swapped, or bytes changed so that the exclusive or stays or is set anew. */
static void wrong_indexes(void)
{
    uint8_t entry[ENTRY_SIZE];
    struct day day;
    size_t i;

    for (i = 0; i < 2; i++) {
        make_day(&day, 3, 4 * i);
        memcpy(entry, index_in(&day) + i * ENTRY_SIZE, ENTRY_SIZE);
        memcpy(index_in(&day) + i * ENTRY_SIZE, index_in(&day) + (i + 1) * ENTRY_SIZE, ENTRY_SIZE);
        memcpy(index_in(&day) + (i + 1) * ENTRY_SIZE, entry, ENTRY_SIZE);
        emit_count(&day, day.length);
        emit_position(&day, 9);
        emit_find(&day, "12");
    }
    for (i = 0; i < ENTRY_SIZE; i++) {
        make_day(&day, 2, i);
        index_in(&day)[i] ^= 0x04;
        index_in(&day)[ENTRY_SIZE + (i + 5) % ENTRY_SIZE] ^= 0x04;
        emit_count(&day, day.length);
    }
    make_day(&day, 1, 0);
    index_in(&day)[11] ^= 0x01;
    trailer_in(&day)[6] ^= 0x01;
    emit_count(&day, day.length);
}

/* 41, with the first position; the frame speaks before it, the index after it. */
static void refused_images(void)
{
    struct day day;
    size_t step;

    for (step = 0; step < 6; step++) {
        make_day(&day, 3, 0);
        if (step != 4)
            day.file[(step % 3) * IMAGE_SIZE + 40] ^= 0x80;
        if (step == 1)
            day.file[2 * IMAGE_SIZE + 60] ^= 0x80;
        if (step == 2)
            trailer_in(&day)[7] = 0x00;
        if (step >= 3) {
            index_in(&day)[0] ^= 0x04;
            index_in(&day)[ENTRY_SIZE] ^= 0x04;
        }
        emit_count(&day, day.length);
        emit_position(&day, 100);
        emit_find(&day, "none");
        emit_add(&day, day.file, 255, 10);
    }
}

/* Adding: 43 cannot be here; 45, then the new card. */
static void added(void)
{
    uint8_t card[IMAGE_SIZE + 1] = {0}, refused[IMAGE_SIZE];
    struct day day;
    size_t i;

    card_of(card, "100000000000", 0);
    memcpy(refused, card, IMAGE_SIZE);
    refused[255] = 0x99;
    for (i = 0; i < 3; i++) {
        size_t full = (i + 1) * (IMAGE_SIZE + ENTRY_SIZE) + TRAILER_SIZE;
        make_day(&day, i, 1);
        emit_add(&day, card, IMAGE_SIZE, full - 1);
        emit_add(&day, card, IMAGE_SIZE, full);
        emit_add(&day, card, IMAGE_SIZE, full + 40);
        emit_add(&day, refused, IMAGE_SIZE, full - 1);
        emit_add(&day, refused, IMAGE_SIZE, full);
        emit_add(&day, card, i == 0 ? 0 : i == 1 ? 255 : 257, full);
        emit_add(&day, card, IMAGE_SIZE, 0);
        emit_add(&day, card, 1, i);
    }
    card_of(card, "123456", 3);
    make_day(&day, 4, 1);
    emit_add(&day, card, IMAGE_SIZE, 2000);
}

/* Building: 40, 41, 45. */
static void built(void)
{
    static const size_t odd[] = {1, 255, 257, 511, 700};
    struct day day;
    size_t i;

    make_day(&day, 3, 6);
    for (i = 0; i < COUNT(odd); i++)
        emit_build(&day, odd[i], 2000);
    emit_build(&day, 3 * IMAGE_SIZE, day.length - 1);
    emit_build(&day, 3 * IMAGE_SIZE, day.length);
    emit_build(&day, 3 * IMAGE_SIZE, day.length + 100);
    emit_build(&day, 3 * IMAGE_SIZE, 0);
    emit_build(&day, 0, 7);
    emit_build(&day, 0, 8);
    emit_build(&day, 0, 300);
    for (i = 0; i < 3; i++) {
        make_day(&day, 3, i);
        day.images[i * IMAGE_SIZE + 100] ^= 0x80;
        emit_build(&day, 3 * IMAGE_SIZE, 2000);
        emit_build(&day, 3 * IMAGE_SIZE, 20);
        emit_build(&day, 3 * IMAGE_SIZE - 1, 20);
    }
}

void day_cases(void)
{
    right_days();
    numbers();
    wrong_frames();
    wrong_indexes();
    refused_images();
    added();
    built();
    wrong_lengths();
}
