/* The corpus of cases. */
#ifndef SECOND_CASES_H
#define SECOND_CASES_H

#include "casefile.h"
#include "draft.h"

/* Wide: each row but 8E optional, text, 1 to 28. */
extern struct edition terminal, issue, wide;

/* Terminal or issue in turn. */
const struct edition *turn(size_t count);

/* A case of this kind with nothing in it, to be filled and put; the next call takes its place. */
struct test_case *new_case(uint8_t kind);
void set_span(struct span *span, const uint8_t *bytes, size_t length);
/* What fills a room at first. */
uint8_t chance_room_byte(void);

void emit_image(const struct edition *edition, const uint8_t *image, size_t length);
void emit_draft(const struct edition *edition, const struct draft *draft);
/* With the edition's number on the record. */
void emit_write(const struct edition *edition, const uint8_t *record, size_t buffer_length);
/* With the number that it has. */
void emit_as_numbered(const struct edition *edition, const uint8_t *record, size_t buffer_length);
void emit_record(const struct edition *edition, const uint8_t *record);
/* The record's card to read. */
void emit_card(const struct edition *edition, const uint8_t *record);
void emit_both(const struct edition *edition, const uint8_t *record);

/* One byte changed, the checksum set right again. */
void emit_damaged(const struct edition *edition, const struct draft *draft, size_t address, uint8_t byte);

/* A record for both editions in which the row may have any of its lengths. */
void record_around(uint8_t *record, size_t row);

void reading_cases(void);
void writing_cases(void);
void shared_cases(void);
void template_cases(void);
void edition_cases(void);
void length_cases(void);
void number_cases(void);
void places_cases(void);
void fresher_cases(void);
void differences_cases(void);
void plan_cases(void);
void front_cases(void);
void behind_cases(void);
void day_cases(void);
void tree_cases(void);
void nested_cases(void);
void written_lengths(void);
void sizes_cases(void);
void sweep_cases(void);

void write_corpus(uint64_t seed);
void write_sweeps(void);

#endif
