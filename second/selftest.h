/* Self tests. */
#ifndef SECOND_SELFTEST_H
#define SECOND_SELFTEST_H

#include "card.h"

#define COUNT(list) (sizeof(list) / sizeof((list)[0]))
#define CHECK(condition) check((condition), #condition, __FILE__, __LINE__)

void check(int holds, const char *what, const char *file, int line);

/* The answer with this number, place and tag. */
uint64_t told(unsigned number, unsigned place, unsigned tag);

/* A copy of exactly this size, so that a look past its end is found; to be freed. */
uint8_t *exact_copy(const uint8_t *bytes, size_t length);

/* The tests of other files. */
void test_lengths(void);
void test_places(void);
void test_fresher(void);
void test_differences(void);
void test_plans(void);
void test_fronts(void);
void test_days(void);
void test_trees(void);
void test_formed(void);
void test_nested(void);

#endif
