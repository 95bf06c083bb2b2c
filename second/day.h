/* The day file: images, an index and a trailer that points back. */
#ifndef SECOND_DAY_H
#define SECOND_DAY_H

#include "card.h"

enum {
    DAY_MAX = 200,
    NUMBER_SIZE = 12,
    ENTRY_SIZE = NUMBER_SIZE + 2,
    TRAILER_SIZE = 8,
    DAY_SIZE_MAX = DAY_MAX * (IMAGE_SIZE + ENTRY_SIZE) + TRAILER_SIZE
};

/* Bits 40-63: the count, where the image starts, the position, the new file's length; with 41 the position. */

uint64_t second_day_count(const uint8_t *file, size_t file_len);
uint64_t second_day_image(const uint8_t *file, size_t file_len, uint64_t position);
uint64_t second_day_find(const uint8_t *file, size_t file_len, const uint8_t *number, size_t number_len);
uint64_t second_day_add(const uint8_t *file, size_t file_len, const uint8_t *card, size_t card_len,
                        uint8_t *room, size_t room_len);
uint64_t second_day_build(const uint8_t *images, size_t images_len, uint8_t *room, size_t room_len);

#endif
