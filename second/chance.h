/* Random values, records and editions, the same for the same seed. */
#ifndef SECOND_CHANCE_H
#define SECOND_CHANCE_H

#include "card.h"

struct rule_row {
    uint8_t required;
    uint8_t rule;
    uint32_t lengths;
};

void chance_seed(uint64_t seed);
/* 0 to below count. */
size_t chance(size_t count);

struct rule_row row_of_table(const uint8_t *table, size_t row);
void row_to_table(uint8_t *table, size_t row, struct rule_row rule_row);

/* A value that the rule takes. */
void chance_value(unsigned rule, uint8_t *value, size_t length);
void chance_fill(uint8_t *record, const uint8_t *table, size_t row, size_t length);

/* A record that the writer takes under the table; 0 if none was found. */
int chance_record(uint8_t *record, const uint8_t *table);
/* The same with this template length, whether in 70 to 212 or not. */
int chance_record_of(uint8_t *record, const uint8_t *table, size_t wanted);

/* A well-formed table. */
void chance_table(uint8_t *table);

#endif
