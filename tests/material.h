/* Random editions, records and cards, right ones and damaged ones, made of the parts of second/. */
#ifndef TESTS_MATERIAL_H
#define TESTS_MATERIAL_H

#include "draft.h"

/* A table, a record that the writer takes under it, and its card. */
struct stock {
    uint8_t table[TABLE_SIZE];
    uint8_t record[RECORD_SIZE];
    struct draft draft;
};

/* 0 if no record was found for the table. */
int stock_up(struct stock *stock, const uint8_t *table);
/* The same with this template length, whether in 70 to 212 or not. */
int stock_up_at(struct stock *stock, const uint8_t *table, size_t template_length);

void random_bytes(uint8_t *bytes, size_t count);

/* One change each. Not every change makes a thing wrong. */
void damage_table(uint8_t *table);
/* A row of the record gets another value that its rule takes, or, if it may, is left out; or another byte changes. */
void vary_record(uint8_t *record, const uint8_t *table);
void damage_record(uint8_t *record, const uint8_t *table);
void damage_card(struct stock *stock);

#endif
