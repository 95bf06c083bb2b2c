/* Calls that are lent tables, records and rooms of other sizes than theirs.
   Written from the documents alone, without a look at the library. */
#include <string.h>

#include "answers.h"
#include "cases.h"
#include "differences.h"
#include "fresher.h"
#include "front.h"
#include "list.h"
#include "places.h"
#include "plan.h"

#define COUNT(list) (sizeof(list) / sizeof((list)[0]))

enum { CALL_COUNT = 9, FILL = 0xA5 };

/* Calls with a room of bytes; a record is lent as one. */
static uint64_t call_with_bytes(const struct test_case *test_case, const uint8_t *table, uint8_t *room)
{
    static const uint8_t image[IMAGE_SIZE] = {0};
    uint8_t other[IMAGE_SIZE] = {0};
    size_t table_len = test_case->numbers[1];
    size_t room_len = test_case->numbers[2];

    switch (test_case->numbers[0]) {
    case 0:
        return second_edition(table_len, room, room_len);
    case 1:
        return second_read(table, table_len, image, IMAGE_SIZE, room, room_len);
    case 2:
        return second_write(table, table_len, room, room_len, other, IMAGE_SIZE);
    case 3:
        return second_renumber(table, table_len, room, room_len);
    case 4:
        return second_places(table, table_len, image, IMAGE_SIZE, room, room_len);
    case 5:
        return second_fresher(table, table_len, image, IMAGE_SIZE, image, IMAGE_SIZE, room, room_len);
    default:
        return second_front(room, room_len, table_len, other, FRONT_SIZE);
    }
}

/* Calls with a room of words. */
static uint64_t call_with_words(const struct test_case *test_case, const uint8_t *table)
{
    static const uint8_t image[IMAGE_SIZE] = {0};
    static uint32_t words[LENT_MAX];
    size_t table_len = test_case->numbers[1];
    size_t room_len = test_case->numbers[2];

    if (test_case->numbers[0] == 7)
        return second_differences(table, table_len, image, IMAGE_SIZE, image, IMAGE_SIZE, words, room_len);
    return second_plan(table, table_len, image, IMAGE_SIZE, image, IMAGE_SIZE, words, room_len);
}

uint64_t answer_sizes(const struct test_case *test_case, FILE *out)
{
    uint8_t table[LENT_MAX] = {0};
    uint8_t room[LENT_MAX];
    uint64_t answer;

    if (test_case->numbers[1] >= TABLE_SIZE)
        second_edition(EDITION_TERMINAL, table, TABLE_SIZE);
    memset(room, FILL, LENT_MAX);
    answer = test_case->numbers[0] < 7 ? call_with_bytes(test_case, table, room) : call_with_words(test_case, table);
    print_answer(out, answer);
    putc(' ', out);
    print_room(out, room, test_case->numbers[2], FILL);
    return answer;
}

static void emit_sizes(size_t call, size_t first, size_t then)
{
    struct test_case *test_case = new_case('Z');

    test_case->numbers[0] = call;
    test_case->numbers[1] = first;
    test_case->numbers[2] = then;
    put_case(stdout, test_case);
}

/* The right size of the last, both sides of it, and others; the table whole, one byte short, one byte long, not there. */
void sizes_cases(void)
{
    static const size_t rooms[CALL_COUNT] = {
        TABLE_SIZE, RECORD_SIZE, RECORD_SIZE, RECORD_SIZE, PLACES_SIZE, FRESHER_SIZE, RECORD_SIZE, DIFFERENCE_COUNT, PLAN_MAX
    };
    static const size_t tables[] = {TABLE_SIZE, TABLE_SIZE - 1, TABLE_SIZE + 1, 0, 1, 2, 3, 256, 257};
    size_t call, i;

    for (call = 0; call < CALL_COUNT; call++) {
        for (i = 0; i < COUNT(tables); i++)
            emit_sizes(call, tables[i], rooms[call]);
        for (i = 0; i < 3; i++) {
            emit_sizes(call, call == 0 ? i : TABLE_SIZE, rooms[call] - 1);
            emit_sizes(call, call == 0 ? i : TABLE_SIZE, rooms[call] + 1);
            emit_sizes(call, TABLE_SIZE - i, i == 0 ? 0 : LENT_MAX);
        }
    }
}
