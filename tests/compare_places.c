/* Places and the host's command. */
#include "compare.h"

#include "chance.h"
#include "kvk.h"
#include "places.h"

static void make_places(struct call *call)
{
    const struct stock *entry = any_stock();

    make_edition(&call->lent[0], entry);
    make_image(&call->lent[1], entry);
    set_room(&call->room, PLACES_SIZE);
    change_sizes(call);
}

/* A range about the edges of the template. */
static void make_command(struct bytes *command, size_t total)
{
    size_t offset = chance(4) == 0 ? chance(65536) : chance(total + 3);
    size_t left = offset < total ? total - offset : 0;
    size_t count = chance(3) == 0 ? chance(256) : left + chance(3);

    command->length = 5;
    command->at[0] = 0x00;
    command->at[1] = 0xB0;
    command->at[2] = (uint8_t)(offset >> 8);
    command->at[3] = (uint8_t)offset;
    command->at[4] = (uint8_t)count;
    if (chance(16) == 0)
        random_bytes(command->at + chance(2), 1);
    if (chance(16) == 0) {
        command->length = chance(8);
        random_bytes(command->at, command->length);
    }
}

static void make_host(struct call *call)
{
    const struct stock *entry = any_stock();

    make_edition(&call->lent[0], entry);
    if (chance(4))
        set_bytes(&call->lent[1], entry->draft.image, IMAGE_SIZE);
    else
        make_image(&call->lent[1], entry);
    make_command(&call->lent[2], entry->draft.end - 30);
    set_room(&call->room, HOST_SIZE);
    change_sizes(call);
}

static uint64_t library_places(const struct lent *lent)
{
    return kvk_places(lent->at[0], lent->length[0], lent->at[1], lent->length[1], lent->room, lent->room_length);
}

static uint64_t places_by_second(const struct lent *lent)
{
    return second_places(lent->at[0], lent->length[0], lent->at[1], lent->length[1], lent->room, lent->room_length);
}

static uint64_t library_host(const struct lent *lent)
{
    return kvk_host(lent->at[0], lent->length[0], lent->at[1], lent->length[1], lent->at[2], lent->length[2],
                    lent->room, lent->room_length);
}

static uint64_t host_by_second(const struct lent *lent)
{
    return second_host(lent->at[0], lent->length[0], lent->at[1], lent->length[1], lent->at[2], lent->length[2],
                       lent->room, lent->room_length);
}

const struct comparison object_places = {
    "places", {{"edition", 1}, {"image", 1}, {NULL, 0}}, 1, 2, library_places, places_by_second, make_places, NULL, NULL, NULL
};
const struct comparison host_commands = {
    "host", {{"edition", 1}, {"image", 1}, {"command", 1}, {NULL, 0}}, 1, 2, library_host, host_by_second, make_host, NULL, NULL, NULL
};
