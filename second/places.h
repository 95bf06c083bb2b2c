/* Where the objects of a card stand, and the command that host programs give. */
#ifndef SECOND_PLACES_H
#define SECOND_PLACES_H

#include "card.h"

enum { PLACES_SIZE = 2 * OBJECT_COUNT, HOST_SIZE = 257 };

/* Start and length of each of the sixteen values, 0 and 0 for absent; zeros with a refusal. */
uint64_t second_places(const uint8_t *edition, size_t edition_len,
                       const uint8_t *image, size_t image_len,
                       uint8_t *room, size_t room_len);

/* How many bytes of answer in bits 40-63. */
uint64_t second_host(const uint8_t *edition, size_t edition_len,
                     const uint8_t *image, size_t image_len,
                     const uint8_t *command, size_t command_len,
                     uint8_t *room, size_t room_len);

#endif
