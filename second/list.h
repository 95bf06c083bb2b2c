/* The listing of document 01. */
#ifndef SECOND_LIST_H
#define SECOND_LIST_H

#include <stddef.h>
#include <stdint.h>
#include <stdio.h>

/* Writes what the program of document 01 says about these bytes under the table. */
void list_image(FILE *out, const uint8_t *table, const uint8_t *image, size_t image_len);

void list_refusal(FILE *out, uint64_t answer);

/* Writes "number place TT shortest longest". */
void print_answer(FILE *out, uint64_t answer);

/* What answers are counted by: the number, or without one the place, which nesting alone has then. */
unsigned counted_by(uint64_t answer);

#endif
