/* Length fields. */
#include "compare.h"

#include "chance.h"
#include "kvk.h"
#include "length.h"

static void make_length_field(struct call *call)
{
    static const uint8_t firsts[] = {0x00, 0x7E, 0x7F, 0x80, 0x81, 0x81, 0x81, 0x82, 0x82, 0x82, 0x83, 0x84, 0xFF};
    static const uint8_t laters[] = {0x00, 0x00, 0x01, 0x7F, 0x80, 0x81, 0xFF};
    struct bytes *field = &call->lent[0];
    size_t i;

    field->length = chance(6);
    random_bytes(field->at, field->length);
    if (field->length > 0 && chance(8))
        field->at[0] = firsts[chance(sizeof firsts)];
    for (i = 1; i < field->length; i++) {
        if (chance(2))
            field->at[i] = laters[chance(sizeof laters)];
    }
}

static uint64_t library_length(const struct lent *lent)
{
    return kvk_length(lent->at[0], lent->length[0]);
}

static uint64_t length_by_second(const struct lent *lent)
{
    return second_length(lent->at[0], lent->length[0]);
}

const struct comparison length_fields = {
    "length", {{"bytes", 1}, {NULL, 0}}, 1, 1, library_length, length_by_second, make_length_field, NULL, NULL, NULL
};
