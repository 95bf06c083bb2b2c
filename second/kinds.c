/* The kinds of cases.
   Written from the documents alone, without a look at the library. */
#include "answers.h"

const struct kind kinds[] = {
    {'R', "es", answer_read},
    {'W', "ernf", answer_write},
    {'L', "s", answer_length},
    {'N', "er", answer_renumber},
    {'P', "es", answer_places},
    {'H', "essnf", answer_host},
    {'F', "ess", answer_fresher},
    {'D', "ess", answer_differences},
    {'S', "ess", answer_plan},
    {'C', "essw", answer_check_plan},
    {'T', "rnnf", answer_front},
    {'K', "l", answer_day_count},
    {'I', "ln", answer_day_image},
    {'Q', "ls", answer_day_find},
    {'A', "lsmf", answer_day_add},
    {'B', "lmf", answer_day_build},
    {'G', "lmf", answer_tree},
    {'U', "llmf", answer_tree_write},
    {'E', "ee", answer_nested},
    {'Z', "nnn", answer_sizes},
    {'V', "esnnn", answer_sweep},
    {'M', "esnnn", answer_pair_sweep},
    {'O', "ernn", answer_record_sweep},
    {'X', "es", answer_table_sweep},
    {0, "", NULL}
};
