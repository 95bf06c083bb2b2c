/* The tree of a foreign card. */
#ifndef SECOND_TREE_H
#define SECOND_TREE_H

#include <stddef.h>
#include <stdint.h>

enum { TREE_MAX = 4096, TREE_DEPTH = 6, TREE_ENTRY = 4, TREE_WORDS_MAX = TREE_MAX / 2 * TREE_ENTRY };

/* A listing has four words for each object: tag, depth, the tag's address, the value's length. */

/* How many objects in bits 40-63; with 50 to 53 the place. */
uint64_t second_tree(const uint8_t *bytes, size_t bytes_len, uint16_t *room, size_t room_len);

/* How many bytes in bits 40-63. values: those of the objects that are no lists, end to end. */
uint64_t second_tree_write(const uint16_t *listing, size_t listing_len, const uint8_t *values, size_t values_len,
                           uint8_t *room, size_t room_len);

#endif
