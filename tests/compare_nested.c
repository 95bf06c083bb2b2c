/* Pairs of editions near each other. */
#include "compare.h"

#include <string.h>

#include "kvk.h"
#include "nested.h"
#include "pairs.h"

/* An edition and one within it, as a rule: the same, issue in terminal, or with rows narrowed. */
static void make_nested(struct call *call)
{
    const uint8_t *outer = any_stock()->table;
    size_t rows = chance(4);
    const uint8_t *inner = outer;

    if (chance(4) == 0) {
        outer = terminal_table;
        inner = issue_table;
    }
    set_bytes(&call->lent[0], inner, TABLE_SIZE);
    set_bytes(&call->lent[1], outer, TABLE_SIZE);
    if (chance(8) == 0)
        narrow_table(call->lent[0].at);
    for (; rows > 0; rows--)
        narrow_row(call->lent[0].at, chance(OBJECT_COUNT));
}

/* Changes of any kind, and such as break a clause. */
static void change_pair(struct call *call)
{
    size_t changes = chance(3), broken = chance(2) ? chance(3) : 0;
    size_t row;

    for (; changes > 0; changes--) {
        row = chance(OBJECT_COUNT);
        change_row(call->lent[chance(2)].at, row);
    }
    for (; broken > 0; broken--) {
        row = chance(OBJECT_COUNT);
        break_row(call->lent[0].at, call->lent[1].at, row, (unsigned)(1 + chance(3)));
    }
}

static void make_tables(struct call *call)
{
    make_nested(call);
    if (chance(3))
        change_pair(call);
    if (chance(12) == 0)
        damage_table(call->lent[0].at);
    if (chance(12) == 0)
        damage_table(call->lent[1].at);
    if (chance(64) == 0)
        random_bytes(call->lent[chance(2)].at, TABLE_SIZE);
    change_sizes(call);
}

/* Each table whole, numbered 0, with an empty set, a byte short, a byte long: which of two that are amiss is told. */
enum { STATES = 5 };

static size_t count_fixed(void)
{
    return STATES * STATES;
}

static void set_state(struct bytes *table, size_t state)
{
    set_bytes(table, terminal_table, TABLE_SIZE);
    table->at[TABLE_SIZE] = 0;
    switch (state) {
    case 1: table->at[TABLE_SIZE - 1] = 0; break;
    case 2: memset(table->at + 2, 0, 4); break;
    case 3: table->length = TABLE_SIZE - 1; break;
    case 4: table->length = TABLE_SIZE + 1; break;
    }
}

static void make_fixed_pair(struct call *call, size_t which)
{
    set_state(&call->lent[0], which % STATES);
    set_state(&call->lent[1], which / STATES);
}

static uint64_t library_nested(const struct lent *lent)
{
    return kvk_nested(lent->at[0], lent->length[0], lent->at[1], lent->length[1]);
}

static uint64_t nested_by_second(const struct lent *lent)
{
    return second_nested(lent->at[0], lent->length[0], lent->at[1], lent->length[1]);
}

const struct comparison nestings = {
    "nested", {{"inner", 1}, {"outer", 1}, {NULL, 0}}, 1, 2, library_nested, nested_by_second, make_tables,
    NULL, count_fixed, make_fixed_pair
};
