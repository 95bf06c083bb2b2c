/* What the line of a case says behind its letter. */
#ifndef SECOND_ANSWERS_H
#define SECOND_ANSWERS_H

#include "casefile.h"

uint64_t answer_read(const struct test_case *test_case, FILE *out);
uint64_t answer_write(const struct test_case *test_case, FILE *out);
uint64_t answer_renumber(const struct test_case *test_case, FILE *out);
uint64_t answer_length(const struct test_case *test_case, FILE *out);
uint64_t answer_places(const struct test_case *test_case, FILE *out);
uint64_t answer_host(const struct test_case *test_case, FILE *out);
uint64_t answer_fresher(const struct test_case *test_case, FILE *out);
uint64_t answer_differences(const struct test_case *test_case, FILE *out);
uint64_t answer_plan(const struct test_case *test_case, FILE *out);
uint64_t answer_check_plan(const struct test_case *test_case, FILE *out);
uint64_t answer_front(const struct test_case *test_case, FILE *out);
uint64_t answer_day_count(const struct test_case *test_case, FILE *out);
uint64_t answer_day_image(const struct test_case *test_case, FILE *out);
uint64_t answer_day_find(const struct test_case *test_case, FILE *out);
uint64_t answer_day_add(const struct test_case *test_case, FILE *out);
uint64_t answer_day_build(const struct test_case *test_case, FILE *out);
uint64_t answer_tree(const struct test_case *test_case, FILE *out);
uint64_t answer_tree_write(const struct test_case *test_case, FILE *out);
uint64_t answer_nested(const struct test_case *test_case, FILE *out);
uint64_t answer_sweep(const struct test_case *test_case, FILE *out);
uint64_t answer_pair_sweep(const struct test_case *test_case, FILE *out);
uint64_t answer_record_sweep(const struct test_case *test_case, FILE *out);
uint64_t answer_sizes(const struct test_case *test_case, FILE *out);
uint64_t answer_table_sweep(const struct test_case *test_case, FILE *out);

#endif
