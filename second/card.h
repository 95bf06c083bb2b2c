/* Reader and writer of the insured-person memory card.
   Written from document 01 alone, without a look at the library. */
#ifndef SECOND_CARD_H
#define SECOND_CARD_H

#include <stddef.h>
#include <stdint.h>

enum {
    IMAGE_SIZE = 256,
    ROW_COUNT = 17,
    ROW_SIZE = 6,
    TABLE_NUMBER = ROW_COUNT * ROW_SIZE,
    TABLE_SIZE = TABLE_NUMBER + 1,
    OBJECT_COUNT = 16,
    VALUE_MAX = 28,
    SLOT_SIZE = 1 + VALUE_MAX,
    FREE_COUNT = 12,
    RECORD_FREE = 1,
    RECORD_LAST = RECORD_FREE + FREE_COUNT,
    RECORD_SLOTS = RECORD_LAST + 1,
    RECORD_NUMBER = RECORD_SLOTS + OBJECT_COUNT * SLOT_SIZE,
    RECORD_SIZE = RECORD_NUMBER + 1
};

enum { EDITION_TERMINAL = 1, EDITION_ISSUE = 2 };

enum { RULE_DIGITS, RULE_TEXT, RULE_LEAD, RULE_CODE, RULE_BIRTH, RULE_EXPIRY, RULE_RAW, RULE_NOT_D };

/* Rows in card order. */
enum {
    ROW_80, ROW_81, ROW_8F, ROW_82, ROW_83, ROW_90, ROW_84, ROW_85, ROW_86,
    ROW_87, ROW_88, ROW_89, ROW_8A, ROW_8B, ROW_8C, ROW_8D, ROW_8E
};

extern const uint8_t second_tags[ROW_COUNT];

/* An answer is 0, or a refusal: number in bits 0-7, place 8-15, tag 16-23,
   shortest 24-31, longest 32-39. */

uint64_t second_read(const uint8_t *edition, size_t edition_len,
                     const uint8_t *image, size_t image_len,
                     uint8_t *record, size_t record_len);

uint64_t second_write(const uint8_t *edition, size_t edition_len,
                      const uint8_t *record, size_t record_len,
                      uint8_t *image, size_t image_len);

/* Puts the edition's number on the record, if the edition would write it but for the number. */
uint64_t second_renumber(const uint8_t *edition, size_t edition_len,
                         uint8_t *record, size_t record_len);

/* Whether a rule takes a value of 1 to 28 bytes. */
int second_takes(unsigned rule, const uint8_t *value, size_t length);

/* Fills a table: 1 terminal, 2 issue. */
uint64_t second_edition(uint64_t which, uint8_t *room, size_t room_len);

#endif
