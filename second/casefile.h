/* Cases and answers: the two formats of README.md. */
#ifndef SECOND_CASEFILE_H
#define SECOND_CASEFILE_H

#include <stdio.h>

#include "card.h"

enum { LENT_MAX = 600, LONG_MAX = 4200, WORDS_MAX = 300, EDITION_FIELDS = 2, NUMBER_FIELDS = 3, SPAN_FIELDS = 3 };

struct edition {
    uint8_t selector;
    uint8_t table[TABLE_SIZE];
};

struct span {
    size_t length;
    uint8_t bytes[LONG_MAX];
};

/* What is lent to a call, each field filled as far as the kind has such fields. */
struct test_case {
    uint8_t kind;
    struct edition editions[EDITION_FIELDS];
    struct span spans[SPAN_FIELDS];
    size_t numbers[NUMBER_FIELDS];
    uint8_t record[RECORD_SIZE];
    uint8_t fill;
    uint32_t words[WORDS_MAX];
    size_t word_count;
};

/* fields: e an edition, s a span, n a number of two bytes, r a record, f the byte that fills a room at first,
   w words of four bytes, l a span and m a number up to LONG_MAX.
   answer writes what the line says behind the letter. */
struct kind {
    uint8_t letter;
    const char *fields;
    uint64_t (*answer)(const struct test_case *test_case, FILE *out);
};

/* Ends with a letter 0. */
extern const struct kind kinds[];

/* 1 a case, 0 the clean end, -1 cut off or malformed. */
int get_case(FILE *in, struct test_case *test_case);
void put_case(FILE *out, const struct test_case *test_case);

uint64_t answer_case(const struct test_case *test_case, FILE *out);
void answer_cases(FILE *in, FILE *out);
void tally_cases(FILE *in, FILE *out);
/* The image of each so many cases of reading that lend 256 bytes. */
void pick_images(FILE *in, FILE *out, unsigned long every);

void print_hex(FILE *out, const uint8_t *bytes, size_t count);
/* `=` if each byte is the fill, else all of them. */
void print_room(FILE *out, const uint8_t *room, size_t length, uint8_t fill);
/* How many, the first so many bytes or `=`, and how many behind them are not the fill. */
void print_filled(FILE *out, const uint8_t *room, size_t count, size_t length, uint8_t fill);

#endif
