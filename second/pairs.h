/* Pairs of editions near each other, for cases and tests. */
#ifndef SECOND_PAIRS_H
#define SECOND_PAIRS_H

#include "chance.h"

/* Fewer lengths, required, a narrower rule: the row is within the one it was, as a rule. */
void narrow_row(uint8_t *table, size_t row);
void narrow_table(uint8_t *table);

/* One small change of a row but 8E; it stays well formed. */
void change_row(uint8_t *table, size_t row);

/* Changes the rows of a nested pair so that this clause of nesting fails there: 1 length, 2 value, 3 required. Called
   in this order for one row, what failed before still fails. */
void break_row(uint8_t *inner, uint8_t *outer, size_t row, unsigned clause);

/* Spoils a row, 8E too, so that this clause of well-formed is the first that it breaks: one of formed.h's that a row has.
   0 if this row cannot. */
int spoil_row(uint8_t *table, size_t row, unsigned clause);

#endif
