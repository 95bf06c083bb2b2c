/* Written from the documents alone, without a look at the library. */
#include "length.h"

/* How many bytes a field has that begins with this byte, or 0. */
static size_t size_of_form(uint8_t first)
{
    if (first <= 0x7F)
        return 1;
    if (first == 0x81)
        return 2;
    return first == 0x82 ? 3 : 0;
}

/* How many bytes the length needs. */
static size_t size_needed(unsigned length)
{
    if (length <= 127)
        return 1;
    return length <= 255 ? 2 : 3;
}

uint64_t second_length(const uint8_t *bytes, size_t bytes_len)
{
    unsigned length = 0;
    size_t size, i;

    if (bytes_len == 0)
        return 71;
    size = size_of_form(bytes[0]);
    if (size == 0)
        return 70;
    if (bytes_len < size)
        return 71;
    for (i = size == 1 ? 0 : 1; i < size; i++)
        length = length << 8 | bytes[i];
    if (size_needed(length) < size)
        return 72;
    return (uint64_t)length << 40 | (uint64_t)size << 56;
}
