/* Holds the library's reading of a length field against the second program's, for all strings of up to three bytes. */
#include <stdio.h>

#include "kvk.h"
#include "length.h"

int main(void)
{
    unsigned long count = 0;
    size_t length;

    for (length = 0; length <= 3; length++) {
        unsigned long strings = 1ul << (8 * length), n;

        for (n = 0; n < strings; n++, count++) {
            const uint8_t bytes[3] = {(uint8_t)(n >> 16), (uint8_t)(n >> 8), (uint8_t)n};
            const uint8_t *at = bytes + (3 - length);

            if (kvk_length(at, length) != second_length(at, length)) {
                printf("length field of %zu bytes, %06lx: different answers\n", length, n);
                return 1;
            }
        }
    }
    printf("%lu length fields, no difference\n", count);
    return 0;
}
