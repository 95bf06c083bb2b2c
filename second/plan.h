/* Rewriting a card byte by byte. */
#ifndef SECOND_PLAN_H
#define SECOND_PLAN_H

#include "card.h"

enum { PLAN_MAX = 257 };

/* A step is a word: the address times 256 and the byte. */

/* How many steps in bits 40-63; the room has PLAN_MAX words. */
uint64_t second_plan(const uint8_t *edition, size_t edition_len,
                     const uint8_t *old_image, size_t old_len,
                     const uint8_t *new_image, size_t new_len,
                     uint32_t *room, size_t room_len);

/* 1 yes or 0 no in bits 40-63. */
uint64_t second_check_plan(const uint8_t *edition, size_t edition_len,
                           const uint8_t *old_image, size_t old_len,
                           const uint8_t *new_image, size_t new_len,
                           const uint32_t *steps, size_t steps_len);

#endif
