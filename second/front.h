/* The printed front: four lines of 28. */
#ifndef SECOND_FRONT_H
#define SECOND_FRONT_H

#include "card.h"

enum { LINE_SIZE = 28, LINE_COUNT = 4, FRONT_SIZE = LINE_COUNT * LINE_SIZE };

/* layout: 0 without the fund name, else with it. */
uint64_t second_front(const uint8_t *record, size_t record_len, uint64_t layout, uint8_t *room, size_t room_len);

#endif
