/* Calls every function of the C interface on typical and on worst input, so that its instructions can be counted between
   marks or its stack measured; and the second program's beside it.

   usage: calls count     a line for each pair of marks: the call, its input, whose it is, 1
          calls stacks    a line for each call: the same, and the bytes of stack */
#include <stdio.h>
#include <stdlib.h>
#include <string.h>

#include "compare.h"
#include "day.h"
#include "differences.h"
#include "fresher.h"
#include "front.h"
#include "grow.h"
#include "kvk.h"
#include "mark.h"
#include "plan.h"
#include "stack.h"

typedef uint64_t meter(const char *input, const char *who, work *function, const struct lent *lent);

static struct call call;
static const char *call_name;
static meter *measure_one;
static uint8_t terminal[TABLE_SIZE], issue[TABLE_SIZE];
/* Of words, so that it can be lent as such. */
static uint64_t room[PART_MAX / sizeof(uint64_t)];

/* Meters */

static uint64_t count_one(const char *input, const char *who, work *function, const struct lent *lent)
{
    uint64_t answer;

    printf("%s\t%s\t%s\t1\n", call_name, input, who);
    mark();
    answer = function(lent);
    mark();
    return answer;
}

static uint64_t stack_of_one(const char *input, const char *who, work *function, const struct lent *lent)
{
    uint64_t answer;
    size_t bytes = stack_of(function, lent, &answer);

    printf("%s\t%s\t%s\t%lu\n", call_name, input, who, (unsigned long)bytes);
    return answer;
}

static uint64_t measure_on_fresh_room(const char *input, const char *who, work *function)
{
    struct lent lent;
    size_t i;

    for (i = 0; i < LENT_COUNT; i++) {
        lent.at[i] = call.lent[i].at;
        lent.length[i] = call.lent[i].length;
    }
    memcpy(room, call.room.at, call.room.length);
    lent.room = (uint8_t *)(void *)room;
    lent.room_length = call.room.length;
    lent.number = call.number;
    return measure_one(input, who, function, &lent);
}

static void measure_whose(const char *input, const char *who, work *function, unsigned number)
{
    unsigned answered = kvk_number(measure_on_fresh_room(input, who, function));

    if (answered != number) {
        fprintf(stderr, "calls: %s, %s, %s: the answer has number %u, not %u\n", call_name, input, who, answered, number);
        exit(1);
    }
}

/* The call that is set up, which is to answer with this number. */
static void measure(const char *input, unsigned number)
{
    measure_whose(input, "library", call.kind->library, number);
    measure_whose(input, "second", call.kind->second, number);
}

/* Setting up */

static void begin(const struct comparison *kind, const char *name, size_t room_length)
{
    size_t i;

    if (call_name != name)
        fprintf(stderr, "calls: %s\n", name);
    call_name = name;
    call.kind = kind;
    call.number = 0;
    for (i = 0; i < LENT_COUNT; i++)
        call.lent[i].length = 0;
    memset(call.room.at, 0, room_length);
    call.room.length = room_length;
}

static void lend(size_t part, const uint8_t *bytes, size_t length)
{
    set_bytes(&call.lent[part], bytes, length);
}

/* Cards */

enum { S, ALL, LONGEST, STATUS, LAST_BYTES, BARE, ZEROS, CARDS };

static const char *const files[] = {
    "samples/s.kvk", "samples/both-all-objects.kvk", "samples/both-longest.kvk", "samples/both-status-1000.kvk",
    "samples/both-two-last-bytes.kvk", "samples/terminal-without-optional.kvk"
};
static const char *const names[] = {"s", "both-all-objects", "both-longest"};
static uint8_t images[CARDS][IMAGE_SIZE];
static uint8_t records[CARDS][RECORD_SIZE];

static void load_cards(void)
{
    size_t i;

    second_edition(EDITION_TERMINAL, terminal, TABLE_SIZE);
    second_edition(EDITION_ISSUE, issue, TABLE_SIZE);
    for (i = 0; i < sizeof files / sizeof files[0]; i++) {
        FILE *file = fopen(files[i], "rb");
        if (file == NULL || fread(images[i], 1, IMAGE_SIZE, file) != IMAGE_SIZE) {
            fprintf(stderr, "calls: %s cannot be read\n", files[i]);
            exit(3);
        }
        fclose(file);
        second_read(terminal, TABLE_SIZE, images[i], IMAGE_SIZE, records[i], RECORD_SIZE);
    }
}

static void lend_cards(size_t first, size_t second)
{
    lend(0, terminal, TABLE_SIZE);
    lend(1, images[first], IMAGE_SIZE);
    lend(2, images[second], IMAGE_SIZE);
}

static void measure_cards(const struct comparison *kind, const char *name, size_t room_length)
{
    size_t i;

    begin(kind, name, room_length);
    for (i = S; i <= LONGEST; i++) {
        lend(0, terminal, TABLE_SIZE);
        lend(1, images[i], IMAGE_SIZE);
        measure(names[i], 0);
    }
}

static void measure_writing(void)
{
    size_t i;

    begin(&writing, "kvk_write", IMAGE_SIZE);
    for (i = S; i <= LONGEST; i++) {
        lend(0, terminal, TABLE_SIZE);
        lend(1, records[i], RECORD_SIZE);
        measure(names[i], 0);
    }
}

/* From the other edition's number. */
static void measure_renumbering(void)
{
    size_t i;

    begin(&renumbering, "kvk_renumber", RECORD_SIZE);
    for (i = S; i <= LONGEST; i++) {
        lend(0, terminal, TABLE_SIZE);
        set_bytes(&call.room, records[i], RECORD_SIZE);
        call.room.at[RECORD_NUMBER] = EDITION_ISSUE;
        measure(names[i], 0);
    }
}

static void measure_command(size_t card, const char *input, uint8_t offset, uint8_t count)
{
    uint8_t command[5] = {0x00, 0xB0, 0x00, 0x00, 0x00};

    command[3] = offset;
    command[4] = count;
    lend_cards(card, S);
    lend(2, command, sizeof command);
    measure(input, 0);
}

static void measure_host(void)
{
    begin(&host_commands, "kvk_host", KVK_HOST_SIZE);
    measure_command(S, "s, 8 bytes", 0, 8);
    measure_command(LONGEST, "both-longest, 1 byte", 0, 1);
    measure_command(LONGEST, "both-longest, all 215 bytes", 0, 215);
    measure_command(LONGEST, "both-longest, past the template", 1, 215);
    call.lent[1].at[255] = 0x55;
    measure("both-longest, refused at its last byte", 0);
}

static void measure_front(void)
{
    size_t i;

    begin(&fronts, "kvk_front", FRONT_SIZE);
    for (i = S; i <= LONGEST; i++) {
        lend(0, records[i], RECORD_SIZE);
        call.number = 0;
        measure(names[i], 0);
    }
    call.number = 1;
    measure("both-longest, with the fund name", 0);
    lend(0, records[BARE], RECORD_SIZE);
    measure("terminal-without-optional, refused with 30", 30);
}

/* Pairs of cards */

struct pair {
    const char *input;
    size_t first;
    size_t second;
};

static const struct pair pairs[] = {
    {"s twice", S, S},
    {"s, both-status-1000", S, STATUS},
    {"both-all-objects, both-two-last-bytes", ALL, LAST_BYTES},
    {"both-longest, both-all-objects", LONGEST, ALL},
    {"both-longest twice", LONGEST, LONGEST}
};

static void measure_pairs(const struct comparison *kind, const char *name, size_t room_length)
{
    size_t i;

    begin(kind, name, room_length);
    for (i = 0; i < sizeof pairs / sizeof pairs[0]; i++) {
        lend_cards(pairs[i].first, pairs[i].second);
        measure(pairs[i].input, 0);
    }
}

/* Plans */

static const struct pair rewritings[] = {
    {"s, both-status-1000", S, STATUS},
    {"s, both-longest", S, LONGEST},
    {"256 zeros, both-longest", ZEROS, LONGEST}
};

static void measure_plans(void)
{
    size_t i;

    begin(&plans, "kvk_plan", PLAN_MAX * sizeof(uint32_t));
    for (i = 0; i < sizeof rewritings / sizeof rewritings[0]; i++) {
        lend_cards(rewritings[i].first, rewritings[i].second);
        measure(rewritings[i].input, 0);
    }
}

/* The library's own plan. */
static void lend_plan(const struct pair *pair)
{
    uint32_t steps[PLAN_MAX];
    uint64_t answer = kvk_plan(terminal, TABLE_SIZE, images[pair->first], IMAGE_SIZE, images[pair->second], IMAGE_SIZE,
                               steps, PLAN_MAX);

    lend_cards(pair->first, pair->second);
    lend(3, (const uint8_t *)steps, kvk_value(answer) * sizeof steps[0]);
}

/* Each state but the last is as both images are up to address 251, and is refused there. */
static void lend_worst_plan(void)
{
    uint32_t steps[PLAN_MAX];
    size_t i;

    for (i = 0; i < PLAN_MAX; i++)
        steps[i] = 251u << 8 | (i == PLAN_MAX - 1 ? 0x20u : 0x21u);
    lend_cards(LONGEST, LONGEST);
    lend(3, (const uint8_t *)steps, sizeof steps);
}

static void measure_checks(void)
{
    size_t i;

    begin(&plan_checks, "kvk_check_plan", 0);
    for (i = 0; i < sizeof rewritings / sizeof rewritings[0]; i++) {
        lend_plan(&rewritings[i]);
        measure(rewritings[i].input, 0);
    }
    lend_worst_plan();
    measure("both-longest twice, 257 steps at 251", 0);
}

/* Day files */

enum order { MIXED, ASCENDING, DESCENDING };

/* The insured number of the card at this position; all of them differ. */
static void put_insured_number(uint8_t *record, size_t position, enum order order)
{
    size_t rank = order == MIXED ? position * 73 % DAY_MAX : order == ASCENDING ? position : DAY_MAX - 1 - position;
    char text[16];

    sprintf(text, "%lu", 100000000ul + (unsigned long)rank);
    set_text(record, ROW_82, text);
}

static size_t make_images(uint8_t *room_of_images, size_t count, enum order order)
{
    uint8_t record[RECORD_SIZE];
    size_t i;

    memcpy(record, records[ALL], RECORD_SIZE);
    for (i = 0; i < count; i++) {
        put_insured_number(record, i, order);
        second_write(terminal, TABLE_SIZE, record, RECORD_SIZE, room_of_images + i * IMAGE_SIZE, IMAGE_SIZE);
    }
    return count * IMAGE_SIZE;
}

struct day {
    const char *input;
    size_t count;
    enum order order;
    struct bytes images;
    struct bytes file;
};

static struct day days[] = {
    {.input = "0 cards", .count = 0},
    {.input = "1 card", .count = 1},
    {.input = "10 cards", .count = 10},
    {.input = "100 cards", .count = 100},
    {.input = "200 cards", .count = 200},
    {.input = "200 cards, numbers ascending", .count = 200, .order = ASCENDING},
    {.input = "200 cards, numbers descending", .count = 200, .order = DESCENDING}
};

enum { DAYS = 5, ORDERED_DAYS = sizeof days / sizeof days[0] };

static void make_days(void)
{
    size_t i;

    for (i = 0; i < ORDERED_DAYS; i++) {
        struct day *day = &days[i];
        day->images.length = make_images(day->images.at, day->count, day->order);
        day->file.length = (size_t)(second_day_build(day->images.at, day->images.length, day->file.at, PART_MAX) >> 40);
    }
}

static void measure_count(void)
{
    size_t i;

    begin(&day_counts, "kvk_day_count", 0);
    for (i = 0; i < ORDERED_DAYS; i++) {
        lend(0, days[i].file.at, days[i].file.length);
        measure(days[i].input, 0);
    }
}

static void measure_image_and_find(void)
{
    static const uint8_t number[9] = {'1', '0', '0', '0', '0', '0', '0', '0', '0'};
    size_t i;

    begin(&day_images, "kvk_day_image", 0);
    for (i = 0; i < DAYS; i++) {
        lend(0, days[i].file.at, days[i].file.length);
        call.number = days[i].count - (i != 0);
        measure(days[i].input, i == 0 ? 44 : 0);
    }
    begin(&day_finds, "kvk_day_find", 0);
    for (i = 0; i < DAYS; i++) {
        lend(0, days[i].file.at, days[i].file.length);
        lend(1, number, sizeof number);
        measure(days[i].input, i == 0 ? 44 : 0);
    }
}

/* To 199 cards there is room for one more: a file of 200 is refused with 43 once it is checked. */
static void measure_add(void)
{
    static uint8_t some[(DAY_MAX - 1) * IMAGE_SIZE];
    size_t i;

    begin(&day_adds, "kvk_day_add", DAY_SIZE_MAX);
    for (i = 0; i < DAYS; i++) {
        lend(0, days[i].file.at, days[i].file.length);
        lend(1, days[4].images.at + 199 * IMAGE_SIZE, IMAGE_SIZE);
        if (days[i].count < DAY_MAX)
            measure(days[i].input, 0);
    }
    make_images(some, DAY_MAX - 1, MIXED);
    call.lent[0].length = (size_t)(second_day_build(some, sizeof some, call.lent[0].at, PART_MAX) >> 40);
    measure("199 cards", 0);
}

static void measure_build(void)
{
    size_t i;

    begin(&day_builds, "kvk_day_build", DAY_SIZE_MAX);
    for (i = 0; i < DAYS; i++) {
        lend(0, days[i].images.at, days[i].images.length);
        measure(days[i].input, 0);
    }
}

/* Foreign cards */

/* One object over all bytes. */
static void make_flat(uint8_t *bytes, size_t length)
{
    memset(bytes, 0, length);
    bytes[0] = 0xC0;
    bytes[1] = 0x82;
    bytes[2] = (uint8_t)((length - 4) >> 8);
    bytes[3] = (uint8_t)(length - 4);
}

/* Objects without a value. */
static void make_small(uint8_t *bytes, size_t length)
{
    size_t i;

    for (i = 0; i < length; i += 2) {
        bytes[i] = 0xC0;
        bytes[i + 1] = 0;
    }
}

/* Towers of six lists, and small objects where there is no room for one more. */
static void make_deep(uint8_t *bytes, size_t length)
{
    static const uint8_t tower[12] = {0x61, 10, 0x61, 8, 0x61, 6, 0x61, 4, 0x61, 2, 0x61, 0};
    size_t i;

    make_small(bytes, length);
    for (i = 0; i + sizeof tower <= length; i += sizeof tower)
        memcpy(bytes + i, tower, sizeof tower);
}

struct shape {
    const char *name;
    void (*make)(uint8_t *bytes, size_t length);
};

static const struct shape shapes[] = {{"flat", make_flat}, {"small", make_small}, {"deep", make_deep}};

static void measure_tree(const uint8_t *bytes, size_t length, const char *input)
{
    begin(&trees, "kvk_tree", TREE_WORDS_MAX * sizeof(uint16_t));
    lend(0, bytes, length);
    measure(input, 0);
}

static void measure_tree_write(const uint8_t *bytes, size_t length, const char *input)
{
    static uint16_t words[TREE_WORDS_MAX];
    static uint8_t values[TREE_MAX];
    size_t objects = (size_t)(second_tree(bytes, length, words, TREE_WORDS_MAX) >> 40);
    size_t values_length = plain_values(bytes, words, objects, values);

    begin(&tree_writings, "kvk_tree_write", TREE_MAX);
    lend(0, (const uint8_t *)words, objects * TREE_ENTRY * sizeof words[0]);
    lend(1, values, values_length);
    measure(input, 0);
}

static void measure_shapes(void (*measure_shape)(const uint8_t *bytes, size_t length, const char *input))
{
    static uint8_t bytes[TREE_MAX];
    char input[32];
    size_t i, length;

    for (i = 0; i < sizeof shapes / sizeof shapes[0]; i++) {
        for (length = 512; length <= TREE_MAX; length *= 2) {
            shapes[i].make(bytes, length);
            sprintf(input, "%s, %lu bytes", shapes[i].name, (unsigned long)length);
            measure_shape(bytes, length, input);
        }
    }
}

static void measure_field(const char *input, const uint8_t *bytes, size_t length, unsigned number)
{
    lend(0, bytes, length);
    measure(input, number);
}

static void measure_lengths(void)
{
    static const uint8_t one[] = {0x05}, two[] = {0x81, 0x80}, three[] = {0x82, 0x01, 0x2C}, none[] = {0x80};

    begin(&length_fields, "kvk_length", 0);
    measure_field("05", one, sizeof one, 0);
    measure_field("8180", two, sizeof two, 0);
    measure_field("82012C", three, sizeof three, 0);
    measure_field("80, refused with 70", none, sizeof none, 70);
}

/* Tables */

/* The second program tries every value of a rule against another, which takes it up to a hundred million instructions. */
static void measure_pair(const uint8_t *inner, const uint8_t *outer, const char *input)
{
    lend(0, inner, TABLE_SIZE);
    lend(1, outer, TABLE_SIZE);
    measure_whose(input, "library", nestings.library, 0);
}

static void measure_nested(void)
{
    uint8_t unnumbered[TABLE_SIZE];

    memcpy(unnumbered, terminal, TABLE_SIZE);
    unnumbered[TABLE_NUMBER] = 0;
    begin(&nestings, "kvk_nested", 0);
    measure_pair(issue, terminal, "issue in terminal, nested");
    measure_pair(terminal, terminal, "terminal in terminal, nested");
    measure_pair(terminal, issue, "terminal in issue, not nested");
    measure_pair(unnumbered, terminal, "an edition numbered 0 in terminal");
}

/* The run */

static uint64_t no_work(const struct lent *lent)
{
    (void)lent;
    return 0;
}

static const struct comparison nothing = {"nothing", {{NULL, 0}}, 1, 0, no_work, no_work, NULL, NULL, NULL, NULL};

static void measure_all(void)
{
    load_cards();
    make_days();
    begin(&nothing, "nothing", 0);
    measure("", 0);
    measure_cards(&reading, "kvk_read", RECORD_SIZE);
    measure_cards(&object_places, "kvk_places", KVK_PLACES_SIZE);
    measure_writing();
    measure_renumbering();
    measure_host();
    measure_pairs(&fresher_cards, "kvk_fresher", FRESHER_SIZE);
    measure_pairs(&differences, "kvk_differences", DIFFERENCE_COUNT * sizeof(uint32_t));
    measure_plans();
    measure_checks();
    measure_front();
    measure_nested();
    measure_lengths();
    measure_shapes(measure_tree);
    measure_shapes(measure_tree_write);
    measure_count();
    measure_image_and_find();
    measure_add();
    measure_build();
}

int main(int count, char **words)
{
    if (count == 2 && strcmp(words[1], "count") == 0) {
        measure_one = count_one;
    } else if (count == 2 && strcmp(words[1], "stacks") == 0) {
        measure_one = stack_of_one;
    } else {
        fputs("usage: calls count | stacks\n", stderr);
        return 2;
    }
    measure_all();
    return fflush(stdout) != 0 || ferror(stdout) ? 3 : 0;
}
