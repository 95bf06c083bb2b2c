/* Length fields of one, two and three bytes. */
#ifndef SECOND_LENGTH_H
#define SECOND_LENGTH_H

#include <stddef.h>
#include <stdint.h>

/* The length in bits 40-55 and the bytes used in bits 56-63; or a refusal: 70, 71, 72. */
uint64_t second_length(const uint8_t *bytes, size_t bytes_len);

#endif
