/* The fresher of two cards. */
#ifndef SECOND_FRESHER_H
#define SECOND_FRESHER_H

#include "card.h"

enum { FRESHER_SIZE = 8 };

/* The room: card 1 or 2, start and length of its family name, 0, the months from the first card's validity to
   the second's in four bytes, high byte first. With a refusal 1 and zeros. */
uint64_t second_fresher(const uint8_t *edition, size_t edition_len,
                        const uint8_t *first, size_t first_len,
                        const uint8_t *second, size_t second_len,
                        uint8_t *room, size_t room_len);

#endif
