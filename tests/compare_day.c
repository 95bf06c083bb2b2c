/* The day file: small ones as a rule, now and then one of about 200 cards; right ones and damaged ones. */
#include "compare.h"

#include <string.h>

#include "chance.h"
#include "day.h"
#include "kvk.h"

enum { POOL = 64, MOST = DAY_MAX + 3 };

static uint8_t pool[POOL][IMAGE_SIZE];
static uint8_t pool_numbers[POOL][1 + NUMBER_SIZE];

/* Cards that terminal accepts; many have one of a few insured numbers. */
void fill_pool(void)
{
    static const char *const numbers[] = {"123456", "1234560", "123456789012", "000000", "999999999999"};
    uint8_t record[RECORD_SIZE];
    struct draft draft;
    size_t i;

    for (i = 0; i < POOL; i++) {
        do {
            while (!chance_record(record, terminal_table))
                continue;
            if (i % 3)
                set_text(record, ROW_82, numbers[chance(sizeof numbers / sizeof numbers[0])]);
            draft_card(&draft, record);
        } while (second_read(terminal_table, TABLE_SIZE, draft.image, IMAGE_SIZE, record, RECORD_SIZE) != 0);
        memcpy(pool[i], draft.image, IMAGE_SIZE);
        memcpy(pool_numbers[i], slot_in(record, ROW_82), sizeof pool_numbers[i]);
    }
}

static size_t how_many(void)
{
    if (chance(48) == 0)
        return DAY_MAX - 2 + chance(5);
    return chance(chance(4) ? 4 : 20);
}

static void make_images(struct bytes *images, size_t count)
{
    size_t i;

    for (i = 0; i < count; i++)
        memcpy(images->at + i * IMAGE_SIZE, pool[chance(POOL)], IMAGE_SIZE);
    images->length = count * IMAGE_SIZE;
}

static void set_sum(struct bytes *file)
{
    uint8_t *trailer = file->at + file->length - TRAILER_SIZE;
    size_t count = (size_t)trailer[4] << 8 | trailer[5];
    size_t i;

    trailer[6] = 0;
    for (i = count * IMAGE_SIZE; i + TRAILER_SIZE < file->length; i++)
        trailer[6] ^= file->at[i];
}

/* Two entries change places: the exclusive or stays. */
static void swap_entries(struct bytes *file, size_t count)
{
    uint8_t *one = file->at + count * IMAGE_SIZE + chance(count) * ENTRY_SIZE;
    uint8_t *other = file->at + count * IMAGE_SIZE + chance(count) * ENTRY_SIZE;
    uint8_t entry[ENTRY_SIZE];

    memcpy(entry, one, ENTRY_SIZE);
    memcpy(one, other, ENTRY_SIZE);
    memcpy(other, entry, ENTRY_SIZE);
}

static void damage_day(struct bytes *file, size_t count)
{
    uint8_t *trailer;

    if (file->length < TRAILER_SIZE)
        return;
    trailer = file->at + file->length - TRAILER_SIZE;
    switch (chance(count == 0 ? 3 : 8)) {
    case 0:
        trailer[chance(TRAILER_SIZE)] ^= (uint8_t)(1u << chance(8));
        break;
    case 1:
        file->length = file->length + chance(3) - 1;
        break;
    case 2:
        trailer[5] = (uint8_t)(trailer[5] + 255 + chance(3));
        break;
    case 3:
        swap_entries(file, count);
        break;
    case 4:
        random_bytes(file->at + count * IMAGE_SIZE + chance(count * ENTRY_SIZE), 1);
        set_sum(file);
        break;
    case 5:
        random_bytes(file->at + count * IMAGE_SIZE + chance(count * ENTRY_SIZE), 1);
        break;
    case 6:
        file->at[chance(file->length)] ^= (uint8_t)(1u << chance(8));
        break;
    default:
        file->at[chance(count) * IMAGE_SIZE + 30 + chance(226)] ^= (uint8_t)(1u << chance(8));
    }
}

/* Answers the count. */
static size_t make_file(struct bytes *file)
{
    static struct bytes images;
    size_t count = how_many();

    if (count > DAY_MAX)
        count = DAY_MAX;
    make_images(&images, count);
    file->length = (size_t)(second_day_build(images.at, images.length, file->at, PART_MAX) >> 40);
    while (chance(3) == 0)
        damage_day(file, count);
    if (chance(64) == 0) {
        file->length = chance(30);
        random_bytes(file->at, file->length);
    }
    return count;
}

static void make_count_call(struct call *call)
{
    make_file(&call->lent[0]);
}

static void make_image_call(struct call *call)
{
    static const uint64_t far[] = {255, 256, 65535, 65536, UINT64_C(1) << 32, UINT64_MAX};
    size_t count = make_file(&call->lent[0]);

    call->number = chance(8) ? chance(count + 2) : far[chance(sizeof far / sizeof far[0])];
}

static void make_find_call(struct call *call)
{
    struct bytes *number = &call->lent[1];
    const uint8_t *known;

    make_file(&call->lent[0]);
    known = pool_numbers[chance(POOL)];
    set_bytes(number, known + 1, known[0]);
    switch (chance(6)) {
    case 0:
        number->at[chance(number->length)] = (uint8_t)chance(128);
        break;
    case 1:
        number->at[number->length] = chance(2) ? '0' : ' ';
        number->length++;
        break;
    case 2:
        number->length = chance(number->length + 1);
        break;
    case 3:
        while (number->length < NUMBER_SIZE)
            number->at[number->length++] = ' ';
        break;
    default:
        break;
    }
}

static void set_file_room(struct call *call, size_t wanted)
{
    size_t length = chance(4) ? wanted + chance(40) : wanted + 1 - chance(3);

    if (chance(16) == 0)
        length = chance(wanted + 1);
    set_room(&call->room, length < PART_MAX ? length : PART_MAX);
}

static void make_add_call(struct call *call)
{
    size_t count = make_file(&call->lent[0]);

    if (chance(4))
        set_bytes(&call->lent[1], pool[chance(POOL)], IMAGE_SIZE);
    else
        make_image(&call->lent[1], any_stock());
    if (chance(16) == 0)
        call->lent[1].length = chance(2) ? 255 + 2 * chance(2) : chance(300);
    set_file_room(call, (count + 1) * (IMAGE_SIZE + ENTRY_SIZE) + TRAILER_SIZE);
}

static void make_build_call(struct call *call)
{
    struct bytes *images = &call->lent[0];
    size_t count = how_many();

    make_images(images, count);
    if (count > 0 && chance(4) == 0)
        random_bytes(images->at + chance(images->length), 1);
    if (count > 0 && chance(8) == 0)
        images->length -= chance(3);
    set_file_room(call, count * (IMAGE_SIZE + ENTRY_SIZE) + TRAILER_SIZE);
}

/* About 200 images, with the last, or the last and others, refused in turn, in rooms that are right and too short. */
static size_t count_builds(void)
{
    return 5 * 3 * 2;
}

static void make_fixed_build(struct call *call, size_t which)
{
    struct bytes *images = &call->lent[0];
    size_t count = DAY_MAX - 2 + which % 5;

    make_images(images, count);
    if (which / 5 % 3 > 0)
        images->at[(count - 1) * IMAGE_SIZE + 50] = 0xFF;
    if (which / 5 % 3 > 1)
        images->at[(count - 2) * IMAGE_SIZE + 50] = 0xFF;
    set_room(&call->room, which / 15 == 0 ? count * (IMAGE_SIZE + ENTRY_SIZE) + TRAILER_SIZE : 100);
}

static size_t count_adds(void)
{
    return 3 * 2 * 2;
}

static void make_fixed_add(struct call *call, size_t which)
{
    static struct bytes images;
    struct bytes *file = &call->lent[0];
    size_t count = DAY_MAX - 2 + which % 3;

    make_images(&images, count);
    file->length = (size_t)(second_day_build(images.at, images.length, file->at, PART_MAX) >> 40);
    set_bytes(&call->lent[1], pool[which % POOL], IMAGE_SIZE);
    call->lent[1].at[0] ^= (uint8_t)(which / 3 % 2);
    set_room(&call->room, file->length + (which / 6 == 0 ? 270 : 269));
}

static uint64_t library_count(const struct lent *lent)
{
    return kvk_day_count(lent->at[0], lent->length[0]);
}

static uint64_t count_by_second(const struct lent *lent)
{
    return second_day_count(lent->at[0], lent->length[0]);
}

static uint64_t library_image(const struct lent *lent)
{
    return kvk_day_image(lent->at[0], lent->length[0], lent->number);
}

static uint64_t image_by_second(const struct lent *lent)
{
    return second_day_image(lent->at[0], lent->length[0], lent->number);
}

static uint64_t library_find(const struct lent *lent)
{
    return kvk_day_find(lent->at[0], lent->length[0], lent->at[1], lent->length[1]);
}

static uint64_t find_by_second(const struct lent *lent)
{
    return second_day_find(lent->at[0], lent->length[0], lent->at[1], lent->length[1]);
}

static uint64_t library_add(const struct lent *lent)
{
    return kvk_day_add(lent->at[0], lent->length[0], lent->at[1], lent->length[1], lent->room, lent->room_length);
}

static uint64_t add_by_second(const struct lent *lent)
{
    return second_day_add(lent->at[0], lent->length[0], lent->at[1], lent->length[1], lent->room, lent->room_length);
}

static uint64_t library_build(const struct lent *lent)
{
    return kvk_day_build(lent->at[0], lent->length[0], lent->room, lent->room_length);
}

static uint64_t build_by_second(const struct lent *lent)
{
    return second_day_build(lent->at[0], lent->length[0], lent->room, lent->room_length);
}

const struct comparison day_counts = {
    "day count", {{"file", 1}, {NULL, 0}}, 1, 1, library_count, count_by_second, make_count_call, NULL, NULL, NULL
};
const struct comparison day_images = {
    "day image", {{"file", 1}, {NULL, 0}}, 1, 1, library_image, image_by_second, make_image_call, NULL, NULL, NULL
};
const struct comparison day_finds = {
    "day find", {{"file", 1}, {"number", 1}, {NULL, 0}}, 1, 1, library_find, find_by_second, make_find_call,
    NULL, NULL, NULL
};
const struct comparison day_adds = {
    "day add", {{"file", 1}, {"card", 1}, {NULL, 0}}, 1, 1, library_add, add_by_second, make_add_call,
    NULL, count_adds, make_fixed_add
};
const struct comparison day_builds = {
    "day build", {{"images", 1}, {NULL, 0}}, 1, 1, library_build, build_by_second, make_build_call,
    NULL, count_builds, make_fixed_build
};
