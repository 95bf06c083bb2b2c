/* Written from the documents alone, without a look at the library. */
#include "plan.h"

#include <string.h>

enum { SPOILED = 30, TEMPLATE_TAG = 0x60 };

/* 20, then the edition, then the new image. */
static uint64_t check_lent(const uint8_t *edition, size_t edition_len, size_t old_len,
                           const uint8_t *new_image, size_t new_len)
{
    uint8_t record[RECORD_SIZE];

    if (old_len != IMAGE_SIZE || new_len != IMAGE_SIZE)
        return 20;
    return second_read(edition, edition_len, new_image, new_len, record, RECORD_SIZE);
}

/* Without the template's tag no state is a card: it goes first and comes back last. */
static size_t make_steps(const uint8_t *old_image, const uint8_t *new_image, uint32_t *room)
{
    size_t count = 0;
    uint32_t address;

    if (memcmp(old_image, new_image, IMAGE_SIZE) == 0)
        return 0;
    if (old_image[SPOILED] == TEMPLATE_TAG)
        room[count++] = SPOILED << 8;
    for (address = 0; address < IMAGE_SIZE; address++) {
        if (address != SPOILED && old_image[address] != new_image[address])
            room[count++] = address << 8 | new_image[address];
    }
    room[count++] = SPOILED << 8 | TEMPLATE_TAG;
    return count;
}

uint64_t second_plan(const uint8_t *edition, size_t edition_len,
                     const uint8_t *old_image, size_t old_len,
                     const uint8_t *new_image, size_t new_len,
                     uint32_t *room, size_t room_len)
{
    uint64_t answer;

    if (room_len != PLAN_MAX)
        return 20;
    answer = check_lent(edition, edition_len, old_len, new_image, new_len);
    if (answer == 0)
        answer = (uint64_t)make_steps(old_image, new_image, room) << 40;
    return answer;
}

/* Whether a card may be left in this state. */
static int state_is_allowed(const uint8_t *edition, const uint8_t *state,
                            const uint8_t *old_image, const uint8_t *new_image)
{
    uint8_t record[RECORD_SIZE];

    return memcmp(state, old_image, IMAGE_SIZE) == 0 || memcmp(state, new_image, IMAGE_SIZE) == 0
        || second_read(edition, TABLE_SIZE, state, IMAGE_SIZE, record, RECORD_SIZE) != 0;
}

static int plan_passes(const uint8_t *edition, const uint8_t *old_image, const uint8_t *new_image,
                       const uint32_t *steps, size_t steps_len)
{
    uint8_t state[IMAGE_SIZE];
    size_t i;

    memcpy(state, old_image, IMAGE_SIZE);
    for (i = 0; i < steps_len; i++) {
        if (steps[i] >> 8 > 255)
            return 0;
        state[steps[i] >> 8] = (uint8_t)steps[i];
        if (!state_is_allowed(edition, state, old_image, new_image))
            return 0;
    }
    return memcmp(state, new_image, IMAGE_SIZE) == 0;
}

uint64_t second_check_plan(const uint8_t *edition, size_t edition_len,
                           const uint8_t *old_image, size_t old_len,
                           const uint8_t *new_image, size_t new_len,
                           const uint32_t *steps, size_t steps_len)
{
    uint64_t answer = check_lent(edition, edition_len, old_len, new_image, new_len);

    if (answer == 0 && steps_len > PLAN_MAX)
        answer = 60;
    if (answer != 0)
        return answer;
    return (uint64_t)plan_passes(edition, old_image, new_image, steps, steps_len) << 40;
}
