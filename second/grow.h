/* Random trees, right ones and damaged ones: for cases and tests. */
#ifndef SECOND_GROW_H
#define SECOND_GROW_H

#include "tree.h"

/* A tree of at most so many bytes, up to TREE_MAX; answers how many. */
size_t grow_tree(uint8_t *bytes, size_t room);

/* One change of a string of at most TREE_MAX bytes; answers its new length. */
size_t damage_tree(uint8_t *bytes, size_t length);

/* A string of so many bytes that tell something in a tree. */
void grow_weeds(uint8_t *bytes, size_t length);

/* About six lists, one in the other, around a few weeds; answers how many bytes. */
size_t grow_deep(uint8_t *bytes);

/* The values of the objects that are no lists, end to end; answers their length. */
size_t plain_values(const uint8_t *bytes, const uint16_t *listing, size_t count, uint8_t *values);

#endif
