/* Card images to look at. */
#ifndef SECOND_SAMPLES_H
#define SECOND_SAMPLES_H

#include "draft.h"

size_t sample_count(void);
void make_sample(size_t which, struct draft *draft);

/* Writes them into the folder, which is there already; 0 if all were written. */
int write_samples(const char *folder);

#endif
