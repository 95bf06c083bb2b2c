/* Records and images put together by hand, wrong ones too: for cases, samples and tests. */
#ifndef SECOND_DRAFT_H
#define SECOND_DRAFT_H

#include "card.h"

/* A template under way and the image made of it. tag_at and checksum_at are indexes into
   the body until draft_finish, then addresses; checksum_at 0 says there is none. long_form is how many
   bytes stand behind '81', '82' or '83' in the template's length field, needed or not; 0: as it should be. */
struct draft {
    uint8_t body[400];
    size_t body_length;
    size_t tag_at[ROW_COUNT];
    size_t checksum_at;
    size_t end;
    size_t long_form;
    uint8_t image[IMAGE_SIZE];
};

uint8_t *slot_of(uint8_t *record, size_t row);
const uint8_t *slot_in(const uint8_t *record, size_t row);
void set_text(uint8_t *record, size_t row, const char *value);
void set_absent(uint8_t *record, size_t row);

/* Card S of document 01. */
void record_s(uint8_t *record);
/* As S with all sixteen objects, for both editions. */
void record_full(uint8_t *record);

/* The number of the table's edition. */
void put_number(uint8_t *record, const uint8_t *table);

/* The length of the template that holds the record's objects. */
size_t template_length(const uint8_t *record);

void draft_start(struct draft *draft);
void draft_byte(struct draft *draft, uint8_t byte);
void draft_object(struct draft *draft, size_t row, const uint8_t *value, size_t length);
/* The record's objects of the rows from and before until. One that claims more than 28 bytes
   keeps its length byte and gets 28. */
void draft_rows(struct draft *draft, const uint8_t *record, size_t from, size_t until);
void draft_checksum(struct draft *draft);
/* Lays out head, template, filler and last byte, with the checksum if one was put in. */
void draft_finish(struct draft *draft, const uint8_t *record);
/* Sets the checksum anew after a change of the image. */
void draft_mend(struct draft *draft);
/* All of the above for one record. */
void draft_card(struct draft *draft, const uint8_t *record);

#endif
