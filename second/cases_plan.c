/* Rewriting a card byte by byte.
   Written from the documents alone, without a look at the library. */
#include <string.h>

#include "answers.h"
#include "cases.h"
#include "chance.h"
#include "list.h"
#include "plan.h"

#define COUNT(list) (sizeof(list) / sizeof((list)[0]))

uint64_t answer_plan(const struct test_case *test_case, FILE *out)
{
    const uint8_t *table = test_case->editions[0].table;
    const struct span *old_image = &test_case->spans[0], *new_image = &test_case->spans[1];
    uint32_t room[PLAN_MAX];
    uint64_t answer = second_plan(table, TABLE_SIZE, old_image->bytes, old_image->length,
                                  new_image->bytes, new_image->length, room, PLAN_MAX);
    uint64_t passed = second_check_plan(table, TABLE_SIZE, old_image->bytes, old_image->length,
                                        new_image->bytes, new_image->length, room, (size_t)(answer >> 40));

    print_answer(out, answer);
    fprintf(out, " %u", (unsigned)(passed >> 40));
    return answer;
}

uint64_t answer_check_plan(const struct test_case *test_case, FILE *out)
{
    const struct span *old_image = &test_case->spans[0], *new_image = &test_case->spans[1];
    uint64_t answer = second_check_plan(test_case->editions[0].table, TABLE_SIZE, old_image->bytes, old_image->length,
                                        new_image->bytes, new_image->length, test_case->words, test_case->word_count);

    print_answer(out, answer);
    fprintf(out, " %u", (unsigned)(answer >> 40));
    return answer;
}

/* What goes from one image to another, and the steps. */
struct way {
    struct edition edition;
    uint8_t old_image[IMAGE_SIZE];
    uint8_t new_image[IMAGE_SIZE];
    uint32_t steps[WORDS_MAX];
    size_t count;
};

static void emit_plan(const struct way *way, size_t old_length, size_t new_length)
{
    struct test_case *test_case = new_case('S');

    test_case->editions[0] = way->edition;
    set_span(&test_case->spans[0], way->old_image, old_length);
    set_span(&test_case->spans[1], way->new_image, new_length);
    put_case(stdout, test_case);
}

static void emit_check(const struct way *way, size_t old_length, size_t new_length)
{
    struct test_case *test_case = new_case('C');

    test_case->editions[0] = way->edition;
    set_span(&test_case->spans[0], way->old_image, old_length);
    set_span(&test_case->spans[1], way->new_image, new_length);
    memcpy(test_case->words, way->steps, way->count * sizeof way->steps[0]);
    test_case->word_count = way->count;
    put_case(stdout, test_case);
}

static void emit_way(const struct way *way)
{
    emit_check(way, IMAGE_SIZE, IMAGE_SIZE);
}

static void add_step(struct way *way, uint32_t address, unsigned byte)
{
    way->steps[way->count++] = address << 8 | byte;
}

/* The bytes that differ, in order of address. */
static void add_direct(struct way *way)
{
    uint32_t address;

    for (address = 0; address < IMAGE_SIZE; address++) {
        if (way->old_image[address] != way->new_image[address])
            add_step(way, address, way->new_image[address]);
    }
}

static void cards_of(struct way *way, const struct edition *edition, const uint8_t *old_record, const uint8_t *new_record)
{
    struct draft draft;

    way->edition = *edition;
    way->count = 0;
    draft_card(&draft, old_record);
    memcpy(way->old_image, draft.image, IMAGE_SIZE);
    draft_card(&draft, new_record);
    memcpy(way->new_image, draft.image, IMAGE_SIZE);
}

/* Two cards that differ in so many free bytes: every state between them is accepted. */
static void free_bytes_differ(struct way *way, size_t count)
{
    uint8_t old_record[RECORD_SIZE], new_record[RECORD_SIZE];

    record_full(old_record);
    memcpy(new_record, old_record, RECORD_SIZE);
    memset(new_record + RECORD_FREE, 0x55, count);
    cards_of(way, &terminal, old_record, new_record);
}

/* The program's own plan, and the same without a step, with a step twice and with two steps swapped. */
static void own_plans(const struct way *start)
{
    struct way way = *start;
    uint32_t room[PLAN_MAX];
    uint64_t answer = second_plan(way.edition.table, TABLE_SIZE, way.old_image, IMAGE_SIZE, way.new_image, IMAGE_SIZE,
                                  room, PLAN_MAX);
    size_t count = (size_t)(answer >> 40);
    uint32_t last;

    emit_plan(&way, IMAGE_SIZE, IMAGE_SIZE);
    memcpy(way.steps, room, count * sizeof room[0]);
    way.count = count;
    emit_way(&way);
    if (count < 2)
        return;
    way.count = count - 1;
    emit_way(&way);
    way.count = count;
    last = way.steps[count - 1];
    way.steps[count - 1] = way.steps[0];
    way.steps[0] = last;
    emit_way(&way);
    memmove(way.steps, room + 1, (count - 1) * sizeof room[0]);
    way.count = count - 1;
    emit_way(&way);
    memcpy(way.steps, room, count * sizeof room[0]);
    way.steps[count] = room[count - 1];
    way.count = count + 1;
    emit_way(&way);
}

static void ways_between_cards(void)
{
    static const uint8_t lengths[] = {70, 93, 94, 128, 212};
    uint8_t old_record[RECORD_SIZE], new_record[RECORD_SIZE];
    struct way way;
    size_t i;

    for (i = 0; i < COUNT(lengths); i++) {
        if (!chance_record_of(old_record, terminal.table, lengths[i]) || !chance_record(new_record, issue.table))
            continue;
        cards_of(&way, turn(i), old_record, new_record);
        own_plans(&way);
        add_direct(&way);
        emit_way(&way);
    }
    for (i = 0; i < 4; i++) {
        free_bytes_differ(&way, i);
        own_plans(&way);
        add_direct(&way);
        emit_way(&way);
    }
}

/* Old images that are no cards; the last differs from the new one in every byte. */
static void ways_from_anything(void)
{
    uint8_t record[RECORD_SIZE];
    struct way way;
    size_t i, address;

    record_full(record);
    for (i = 0; i < 5; i++) {
        cards_of(&way, turn(i), record, record);
        for (address = 0; address < IMAGE_SIZE; address++) {
            static const uint8_t fills[] = {0x00, 0xFF, 0x60, 0x20};
            way.old_image[address] = i < 4 ? fills[i] : (uint8_t)(way.new_image[address] ^ 0x01);
        }
        if (i == 4)
            way.old_image[30] = 0x60;
        own_plans(&way);
    }
    cards_of(&way, &terminal, record, record);
    for (address = 0; address < IMAGE_SIZE; address++)
        way.old_image[address] ^= address == 30 ? 0x00 : 0xFF;
    own_plans(&way);
}

/* Through states that may be, and through such as may not. */
static void detours(void)
{
    struct way way;
    size_t i;

    for (i = 0; i < 8; i++) {
        free_bytes_differ(&way, i < 3 ? 0 : 1);
        if (i == 1 || i == 2)
            add_step(&way, 6, 0x77);
        if (i == 2)
            add_step(&way, 6, 0x00);
        if (i >= 3)
            add_step(&way, 6, 0x55);
        if (i == 4)
            add_step(&way, 6, 0x00);
        if (i == 5)
            add_step(&way, 7, 0x01);
        if (i == 6)
            add_step(&way, 30, 0x61);
        if (i == 7)
            add_step(&way, 6, 0x55);
        if (i == 4)
            add_step(&way, 6, 0x55);
        if (i == 5)
            add_step(&way, 7, 0x00);
        if (i == 6)
            add_step(&way, 30, 0x60);
        emit_way(&way);
    }
}

/* Both bytes behind a filler that ends at 253: one alone is refused between. */
static void two_last_bytes(void)
{
    uint8_t old_record[RECORD_SIZE], new_record[RECORD_SIZE];
    struct way way;

    if (!chance_record_of(old_record, issue.table, 93))
        return;
    old_record[0] = 0x82;
    old_record[RECORD_LAST] = 0x00;
    memcpy(new_record, old_record, RECORD_SIZE);
    new_record[RECORD_LAST] = 0xFF;
    cards_of(&way, &issue, old_record, new_record);
    own_plans(&way);
    add_direct(&way);
    emit_way(&way);
    way.count = 0;
    add_step(&way, 255, 0xFF);
    add_step(&way, 254, 0xFF);
    emit_way(&way);
}

/* Another card but for its tag: with the tag back before the last byte it would be that card. */
static void tag_before_last_byte(void)
{
    uint8_t old_record[RECORD_SIZE], new_record[RECORD_SIZE];
    struct way way;

    record_full(old_record);
    old_record[0] = 0x82;
    old_record[RECORD_LAST] = 0x00;
    memcpy(new_record, old_record, RECORD_SIZE);
    new_record[RECORD_LAST] = 0xFF;
    cards_of(&way, &terminal, old_record, new_record);
    way.old_image[30] = 0x61;
    own_plans(&way);
    add_direct(&way);
    emit_way(&way);
}

/* A step past address 255 is no, however it looks. */
static void steps_past_255(void)
{
    static const uint32_t addresses[] = {256, 257, 256 + 6, 65536 + 6, 0xFFFFFF, 0x800000};
    struct way way;
    size_t i;

    for (i = 0; i < COUNT(addresses); i++) {
        free_bytes_differ(&way, 1);
        if (i % 2 == 0)
            add_step(&way, 6, 0x55);
        add_step(&way, addresses[i], 0x55);
        if (i % 3 == 0)
            add_step(&way, 6, 0x55);
        emit_way(&way);
    }
}

/* 256 to 300 steps, all of them idle but the first or the last. */
static void many_steps(void)
{
    static const size_t counts[] = {256, 257, 258, 300};
    struct way way;
    size_t i, k;

    for (i = 0; i < COUNT(counts); i++) {
        for (k = 0; k < 3; k++) {
            free_bytes_differ(&way, 1);
            while (way.count < counts[i])
                add_step(&way, k == 2 ? 256 : 6, k == 1 && way.count + 1 < counts[i] ? 0x00 : 0x55);
            emit_way(&way);
        }
    }
}

/* 20, 2, the new image's own number, 60: one thing less is wrong each time. */
static void order_of_refusals(void)
{
    static const uint8_t addresses[] = {0, 28, 30, 31, 33, 50, 164, 165, 166, 200, 255};
    struct way way;
    size_t step;

    for (step = 0; step < 7; step++) {
        free_bytes_differ(&way, 2);
        if (step == 2)
            way.edition.table[ROW_SIZE * ROW_87 + 1] = RULE_RAW;
        if (step == 3)
            way.edition.table[TABLE_NUMBER] = 0;
        if (step < 4)
            way.edition.selector = 0;
        if (step < 5)
            way.new_image[40] = 0xFF;
        while (way.count < (step < 6 ? 258 : 257))
            add_step(&way, 256, 0x00);
        emit_plan(&way, step == 0 ? 255 : 256, step == 1 ? 257 : 256);
        emit_check(&way, step == 0 ? 255 : 256, step == 1 ? 257 : 256);
    }
    for (step = 0; step < COUNT(addresses); step++) {
        free_bytes_differ(&way, 1);
        way.new_image[addresses[step]] ^= 0x41;
        emit_plan(&way, 256, 256);
    }
    emit_plan(&way, 0, 0);
    emit_check(&way, 256, 0);
    way.old_image[0] = 0x00;
    emit_plan(&way, 256, 256);
}

void plan_cases(void)
{
    ways_between_cards();
    ways_from_anything();
    detours();
    two_last_bytes();
    steps_past_255();
    many_steps();
    order_of_refusals();
    tag_before_last_byte();
}
