/* Pairs of editions, nested or not.
   Written from the documents alone, without a look at the library. */
#include <string.h>

#include "answers.h"
#include "cases.h"
#include "formed.h"
#include "list.h"
#include "nested.h"
#include "pairs.h"

#define COUNT(list) (sizeof(list) / sizeof((list)[0]))
#define BIT(n) (UINT32_C(1) << (n))

enum { CLAUSES_OF_ROWS = NESTED_REQUIRED };

uint64_t answer_nested(const struct test_case *test_case, FILE *out)
{
    uint64_t answer = second_nested(test_case->editions[0].table, TABLE_SIZE, test_case->editions[1].table, TABLE_SIZE);

    print_answer(out, answer);
    fprintf(out, " %u", (unsigned)(answer >> 40));
    return answer;
}

static void emit_pair(const struct edition *inner, const struct edition *outer)
{
    struct test_case *test_case = new_case('E');

    test_case->editions[0] = *inner;
    test_case->editions[1] = *outer;
    put_case(stdout, test_case);
}

static struct edition copy_of(const struct edition *edition)
{
    struct edition copy = *edition;

    copy.selector = 0;
    return copy;
}

static void emit_rows(size_t row, struct rule_row inner_row, struct rule_row outer_row)
{
    struct edition inner = wide, outer = wide;

    row_to_table(inner.table, row, inner_row);
    row_to_table(outer.table, row, outer_row);
    inner.table[TABLE_NUMBER] = (uint8_t)(1 + chance(255));
    outer.table[TABLE_NUMBER] = (uint8_t)(1 + chance(2));
    emit_pair(&inner, &outer);
}

static void known_editions(void)
{
    const struct edition *editions[] = {&terminal, &issue, &wide};
    size_t i;

    for (i = 0; i < COUNT(editions) * COUNT(editions); i++)
        emit_pair(editions[i / COUNT(editions)], editions[i % COUNT(editions)]);
}

/* The lengths that a row of this rule may have, of those wanted. */
static uint32_t lengths_for(unsigned rule, uint32_t wanted)
{
    return rule == RULE_BIRTH ? BIT(8) : rule == RULE_EXPIRY ? BIT(4) : wanted;
}

/* Two rules, where each length of the inner row is the outer's too. */
static void emit_rules(size_t row, uint8_t inner_rule, uint8_t outer_rule, uint32_t lengths)
{
    struct rule_row inner = {0, inner_rule, lengths}, outer = {0, outer_rule, UINT32_C(0x1FFFFFFE)};

    outer.lengths = lengths_for(outer_rule, outer.lengths);
    if ((inner.lengths & ~outer.lengths) == 0 && lengths_for(inner_rule, lengths) == lengths)
        emit_rows(row % OBJECT_COUNT, inner, outer);
}

/* Every two rules, with one length and with more. */
static void rules(void)
{
    static const uint8_t all[] = {
        RULE_DIGITS, RULE_TEXT, RULE_LEAD, RULE_CODE, RULE_NOT_D, RULE_BIRTH, RULE_EXPIRY
    };
    size_t i;

    for (i = 0; i < COUNT(all) * COUNT(all); i++) {
        uint8_t inner = all[i / COUNT(all)], outer = all[i % COUNT(all)];
        int is_about_dates = i / COUNT(all) > 4 || i % COUNT(all) > 4;
        emit_rules(i, inner, outer, is_about_dates ? BIT(8) : BIT(1));
        emit_rules(i + 5, inner, outer, is_about_dates ? BIT(4) : BIT(2) | BIT(28));
        emit_rules(i + 11, inner, outer, BIT(1) | BIT(4) | BIT(8));
    }
}

/* Sets: the same, fewer, more, others; and both ways of required. */
static void sets_and_required(void)
{
    static const uint32_t sets[][2] = {
        {BIT(3), BIT(3)}, {BIT(3), BIT(3) | BIT(4)}, {BIT(3) | BIT(4), BIT(3)}, {BIT(3), BIT(4)},
        {BIT(1), UINT32_C(0x1FFFFFFE)}, {UINT32_C(0x1FFFFFFE), UINT32_C(0x1FFFFFFE)}, {UINT32_C(0x1FFFFFFE), BIT(28)},
        {BIT(28), BIT(1) | BIT(28)}
    };
    size_t i;

    for (i = 0; i < COUNT(sets) * 4; i++) {
        struct rule_row inner = {(uint8_t)(i % 2), RULE_TEXT, sets[i / 4][0]};
        struct rule_row outer = {(uint8_t)(i / 2 % 2), RULE_TEXT, sets[i / 4][1]};
        emit_rows((i * 5) % OBJECT_COUNT, inner, outer);
    }
}

/* Issue in terminal, which is nested, with these clauses failing at a row and, if later is not 0, one at a later row.
   A table that is as it was keeps its name. */
static void emit_broken(size_t row, const unsigned *fails, size_t later)
{
    struct edition inner = copy_of(&issue), outer = copy_of(&terminal);
    unsigned clause;

    for (clause = 1; clause <= CLAUSES_OF_ROWS; clause++) {
        if (fails[clause - 1])
            break_row(inner.table, outer.table, row, clause);
    }
    if (later != 0)
        break_row(inner.table, outer.table, later, (unsigned)(1 + later % CLAUSES_OF_ROWS));
    if (memcmp(inner.table, issue.table, TABLE_SIZE) == 0)
        inner.selector = issue.selector;
    if (memcmp(outer.table, terminal.table, TABLE_SIZE) == 0)
        outer.selector = terminal.selector;
    emit_pair(&inner, &outer);
}

/* Each clause alone, two or three of them, and one with another at a later row. */
static void clauses_at_rows(void)
{
    static const unsigned alone[][CLAUSES_OF_ROWS] = {{1, 0, 0}, {0, 1, 0}, {0, 0, 1}};
    static const unsigned together[][CLAUSES_OF_ROWS] = {{1, 1, 0}, {0, 1, 1}, {1, 0, 1}, {1, 1, 1}};
    size_t row;

    for (row = 0; row < OBJECT_COUNT; row++) {
        emit_broken(row, alone[0], 0);
        emit_broken(row, alone[1], 0);
        emit_broken(row, alone[2], 0);
        emit_broken(row, together[row % 4], 0);
        emit_broken(row, together[(row + 1) % 4], 0);
        if (row + 1 < OBJECT_COUNT)
            emit_broken(row, alone[(row + row / 3) % 3], row + 1 + chance(OBJECT_COUNT - 1 - row));
    }
}

/* The clause that the row breaks goes round with the row. */
static void spoil(struct edition *edition, size_t row)
{
    static const uint8_t clauses[] = {
        FORMED_EMPTY, FORMED_RANGE, FORMED_OUTSIDE, FORMED_RAW, FORMED_BIRTH, FORMED_EXPIRY, FORMED_OUTSIDE
    };
    static const uint8_t checksums[] = {FORMED_8E_OPTIONAL, FORMED_8E_LENGTHS, FORMED_8E_RULE};

    edition->selector = 0;
    spoil_row(edition->table, row, row == ROW_8E ? checksums[chance(3)] : clauses[chance(sizeof clauses)]);
}

/* The inner edition is not well formed, or the outer, whatever else is not nested. */
static void not_well_formed(void)
{
    struct edition inner, outer;
    size_t row;

    for (row = 0; row < ROW_COUNT; row++) {
        inner = *(row % 2 ? &issue : &terminal);
        spoil(&inner, row);
        emit_pair(&inner, row % 3 ? &terminal : &issue);
        outer = *(row % 3 ? &terminal : &issue);
        spoil(&outer, row);
        emit_pair(row % 2 ? &issue : &wide, &outer);
        if (row % 4 == 0)
            emit_pair(&inner, &outer);
    }
}

/* A number 0; tables that are nothing at all. */
static void no_numbers(void)
{
    struct edition inner = copy_of(&issue), outer = copy_of(&terminal), nothing = copy_of(&wide);

    inner.table[TABLE_NUMBER] = 0;
    outer.table[TABLE_NUMBER] = 0;
    emit_pair(&inner, &terminal);
    emit_pair(&issue, &outer);
    emit_pair(&inner, &outer);
    emit_pair(&outer, &issue);
    memset(nothing.table, 0, TABLE_SIZE);
    emit_pair(&nothing, &terminal);
    emit_pair(&issue, &nothing);
    memset(nothing.table, 0xFF, TABLE_SIZE);
    emit_pair(&nothing, &nothing);
}

/* A narrower table in the wider one, and some changed rows. */
static void random_pairs(void)
{
    struct edition inner = wide, outer = wide;
    size_t i;

    for (i = 0; i < 32; i++) {
        chance_table(outer.table);
        memcpy(inner.table, outer.table, TABLE_SIZE);
        narrow_table(inner.table);
        if (i % 2 == 0)
            change_row(outer.table, chance(OBJECT_COUNT));
        if (i % 4 == 0)
            narrow_row(outer.table, chance(OBJECT_COUNT));
        emit_pair(&inner, &outer);
        if (i % 8 == 0)
            emit_pair(&outer, &inner);
    }
}

/* The checksum's row optional, with another set, with another rule. */
static void checksum_rows(void)
{
    static const struct rule_row rows[] = {
        {0, RULE_RAW, BIT(1)}, {1, RULE_RAW, BIT(2)}, {1, RULE_RAW, BIT(1) | BIT(2)}, {1, RULE_TEXT, BIT(1)}
    };
    struct edition spoiled = wide;
    size_t i;

    for (i = 0; i < COUNT(rows); i++) {
        row_to_table(spoiled.table, ROW_8E, rows[i]);
        emit_pair(&spoiled, &wide);
        emit_pair(&wide, &spoiled);
    }
}

/* Each length alone, where the rules decide. */
static void single_lengths(void)
{
    struct edition texts = wide, digits = wide;
    unsigned length;

    for (length = 1; length <= VALUE_MAX; length++) {
        struct rule_row text = {0, RULE_TEXT, BIT(length)}, digit = {0, RULE_DIGITS, BIT(length)};
        row_to_table(texts.table, ROW_82, text);
        row_to_table(digits.table, ROW_82, digit);
        emit_pair(&texts, &digits);
        emit_pair(&digits, &texts);
    }
}

void nested_cases(void)
{
    known_editions();
    rules();
    sets_and_required();
    clauses_at_rows();
    not_well_formed();
    no_numbers();
    random_pairs();
    checksum_rows();
    single_lengths();
}
