/* Length fields against a writer of them. */
#include <stdlib.h>

#include "length.h"
#include "selftest.h"

/* The only form of this length; answers how many bytes. */
static size_t put_length(unsigned length, uint8_t *field)
{
    if (length < 0x80) {
        field[0] = (uint8_t)length;
        return 1;
    }
    if (length < 0x100) {
        field[0] = 0x81;
        field[1] = (uint8_t)length;
        return 2;
    }
    field[0] = 0x82;
    field[1] = (uint8_t)(length >> 8);
    field[2] = (uint8_t)length;
    return 3;
}

static uint64_t length_of(const uint8_t *bytes, size_t count)
{
    uint8_t *own = exact_copy(bytes, count);
    uint64_t answer = second_length(own, count);

    free(own);
    return answer;
}

static void test_every_length(void)
{
    uint8_t field[4];
    unsigned length;
    size_t size;

    for (length = 0; length <= 0xFFFF; length++) {
        size = put_length(length, field);
        field[size] = (uint8_t)length;
        CHECK(length_of(field, size) == ((uint64_t)length << 40 | (uint64_t)size << 56));
        CHECK(length_of(field, size + 1) == length_of(field, size));
        CHECK(length_of(field, size - 1) == told(71, 0, 0));
    }
}

/* Every three bytes of which the first is no plain length: taken only if they are the form of some length. */
static void test_every_field(void)
{
    unsigned first, later;

    for (first = 0x80; first < 0x100; first++) {
        for (later = 0; later <= 0xFFFF; later++) {
            uint8_t field[3] = {(uint8_t)first, (uint8_t)(later >> 8), (uint8_t)later};
            uint64_t wanted = first == 0x81 ? later >> 8 : later;
            uint64_t size = first == 0x81 ? 2 : 3;
            uint64_t answer = second_length(field, 3);
            if (first != 0x81 && first != 0x82)
                CHECK(answer == 70);
            else if (wanted < (first == 0x81 ? 0x80u : 0x100u))
                CHECK(answer == 72);
            else
                CHECK(answer == (wanted << 40 | size << 56));
        }
    }
}

void test_lengths(void)
{
    static const uint8_t cut[2] = {0x82, 0x00};
    static const uint8_t other[1] = {0x80};

    CHECK(length_of(cut, 0) == told(71, 0, 0));
    CHECK(length_of(cut, 1) == told(71, 0, 0));
    CHECK(length_of(cut, 2) == told(71, 0, 0));
    CHECK(length_of(other, 1) == told(70, 0, 0));
    test_every_length();
    test_every_field();
}
