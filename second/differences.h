/* Two cards side by side. */
#ifndef SECOND_DIFFERENCES_H
#define SECOND_DIFFERENCES_H

#include "card.h"

enum { DIFFERENCE_COUNT = OBJECT_COUNT + 1 + FREE_COUNT + 1 };

enum { ABSENT_IN_FIRST = 1, ABSENT_IN_SECOND, LENGTHS_DIFFER, INDEX_DIFFERS, ADDRESS_DIFFERS };

/* How many in bits 40-63. Each word: one of the five times 65536, the tag times 256, the index or address. */
uint64_t second_differences(const uint8_t *edition, size_t edition_len,
                            const uint8_t *first, size_t first_len,
                            const uint8_t *second, size_t second_len,
                            uint32_t *room, size_t room_len);

#endif
