/* The insured-person memory card: reads an image into a record and writes a record into an
   image, both under an edition. Link with target/staticlib/libkvk.a, for x86-64.

   The library keeps no state and allocates nothing. No pointer may be NULL, not even with
   length 0, and the room that a call fills overlaps nothing else that it is lent. */
#ifndef KVK_H
#define KVK_H

#define KVK_VERSION "1.0.0"

#include <stddef.h>
#include <stdint.h>

#ifdef __cplusplus
extern "C" {
#endif

enum {
    KVK_IMAGE_SIZE = 256,
    KVK_TABLE_SIZE = 103,
    KVK_RECORD_SIZE = 479
};

/* A record: address 0, the free addresses, the last byte, sixteen slots in the order
   80 81 8F 82 83 90 84 85 86 87 88 89 8A 8B 8C 8D, and the number of the edition that read
   it. A slot is a length, 0 for absent, and 28 bytes. Reading sets what lies behind a value
   to 0, writing does not look at it. */
enum {
    KVK_FIRST = 0,
    KVK_FREE = 1,        /* addresses 6 to 16, then 29 */
    KVK_LAST = 13,       /* address 255 */
    KVK_SLOTS = 14,
    KVK_SLOT_COUNT = 16,
    KVK_SLOT_SIZE = 29,
    KVK_NUMBER = 478
};

/* An edition is a table of seventeen rows, the sixteen above and then 8E. A row is required
   (0 or 1), the value rule, and the permitted lengths in four bytes, high byte first, bit n
   for length n. Behind the rows stands the edition's number, 1 to 255: terminal 1, issue 2. */
enum { KVK_ROW_COUNT = 17, KVK_ROW_SIZE = 6, KVK_TABLE_NUMBER = 102 };

enum {
    KVK_DIGITS, KVK_TEXT, KVK_LEAD, KVK_CODE, KVK_BIRTH, KVK_EXPIRY, KVK_RAW,
    KVK_NOT_D            /* text other than the single letter D */
};

enum { KVK_TERMINAL = 1, KVK_ISSUE = 2 };

/* Answers 0 if the image was accepted. After any refusal but 20 the record is all 0. */
uint64_t kvk_read(const uint8_t *edition, size_t edition_len,
                  const uint8_t *image, size_t image_len,
                  uint8_t *record, size_t record_len);

/* Answers 0 if the image was written; record and edition have the same number then. A
   refusal leaves the image unchanged. */
uint64_t kvk_write(const uint8_t *edition, size_t edition_len,
                   const uint8_t *record, size_t record_len,
                   uint8_t *image, size_t image_len);

/* Puts the edition's number on the record, if the edition would write it but for the number;
   otherwise answers writing's refusal and leaves the record as it came. */
uint64_t kvk_renumber(const uint8_t *edition, size_t edition_len,
                      uint8_t *record, size_t record_len);

/* Fills the room with the table of KVK_TERMINAL or KVK_ISSUE, or leaves it unchanged and
   answers 20 (the room is not 103 bytes) or 2 (no such edition). */
uint64_t kvk_edition(uint64_t which, uint8_t *room, size_t room_len);

/* Fills 32 bytes with start and length of each object's value, in the order of the record's
   slots; 0 and 0 for absent. With a refusal they are all 0, but with 20 unchanged. */
enum { KVK_PLACES_SIZE = 32 };
uint64_t kvk_places(const uint8_t *edition, size_t edition_len,
                    const uint8_t *image, size_t image_len,
                    uint8_t *room, size_t room_len);

/* Answers a host program's command: '00' 'B0', the offset in two bytes, high byte first, and
   the count, 1 to 255, over the template's bytes from '60' to the checksum's value. The start
   of the room, which has 257 bytes, gets these bytes and '90' '00', or two bytes that say what
   is wrong: '67' '00' the command is not 5 bytes or the count is 0, '6D' '00' other first two
   bytes, '69' '00' the image is refused, '6A' '00' the range goes past the template. kvk_value
   tells how many bytes were put; the rest of the room stays. Refuses only a room of another
   size: 20. */
enum { KVK_HOST_SIZE = 257 };
uint64_t kvk_host(const uint8_t *edition, size_t edition_len,
                  const uint8_t *image, size_t image_len,
                  const uint8_t *command, size_t command_len,
                  uint8_t *room, size_t room_len);

/* Which of two cards is valid later: fills 8 bytes with the card, 1 or 2, where its family name
   starts in its image and the name's length (0 and 0 if it has none), 0, and the months from
   the first card's validity to the second's, a signed number in four bytes, high byte first.
   Equal validity is the first card's. Refuses an image as reading does, the first before the
   second, then 24; the room is then 1 and zeros. A room of another size is 20, unchanged. */
enum { KVK_FRESHER_SIZE = 8 };
uint64_t kvk_fresher(const uint8_t *edition, size_t edition_len,
                     const uint8_t *first, size_t first_len,
                     const uint8_t *second, size_t second_len,
                     uint8_t *room, size_t room_len);

/* What differs between two cards: fills 30 words, one for each difference and 0 behind them, and
   kvk_value tells how many. Objects come first, in card order, then address 0, the free bytes and
   the last byte. A word is what it is times 65536, the tag times 256, and the place. Refuses an
   image as reading does, the first before the second; all words are then 0. A room of another
   size is 20, unchanged. */
enum {
    KVK_DIFFERENCES_SIZE = 30,
    KVK_ABSENT_IN_FIRST = 1,
    KVK_ABSENT_IN_SECOND = 2,
    KVK_LENGTHS_DIFFER = 3,
    KVK_VALUES_DIFFER = 4,   /* the place is the first differing index */
    KVK_BYTES_DIFFER = 5     /* the place is the address, the tag 0 */
};
uint64_t kvk_differences(const uint8_t *edition, size_t edition_len,
                         const uint8_t *first, size_t first_len,
                         const uint8_t *second, size_t second_len,
                         uint32_t *room, size_t room_len);

/* Steps that rewrite a card byte by byte, from any old image to a new one that the edition
   accepts, so that a card pulled early is as it was, or the new one, or refused. A step is a
   word: the address times 256 and the byte. kvk_plan fills the first words of 257 and kvk_value
   tells how many; what lies behind stays, and with a refusal everything. Refuses 20 (an image,
   or the room, has not its size), 2, then the new image as reading does. */
enum { KVK_PLAN_SIZE = 257 };
uint64_t kvk_plan(const uint8_t *edition, size_t edition_len,
                  const uint8_t *old_image, size_t old_len,
                  const uint8_t *new_image, size_t new_len,
                  uint32_t *room, size_t room_len);

/* Checks any such steps: kvk_value is 1 exactly if they end in the new image and each state on
   the way is the old image, the new one, or one that the edition refuses. A step past address
   255 gets 0. Refuses as kvk_plan, then 60 for more than 257 steps. */
uint64_t kvk_check_plan(const uint8_t *edition, size_t edition_len,
                        const uint8_t *old_image, size_t old_len,
                        const uint8_t *new_image, size_t new_len,
                        const uint32_t *steps, size_t steps_len);

/* The printed front: fills 112 bytes with four lines of 28, blank filled and without line ends. A
   layout of 0 is the one without the fund name: name on lines 2 and 3; any other has the name on
   lines 1 and 2 and the fund name on line 3. The status addition is printed so that enrolment in a
   care programme does not show. The record's number is not looked at. Refuses a record of another
   size: 20; then as writing under terminal; then 20 for the room, 30, 31, 32. A refusal leaves
   the room unchanged. */
enum { KVK_FRONT_SIZE = 112 };
uint64_t kvk_front(const uint8_t *record, size_t record_len, uint64_t layout,
                   uint8_t *room, size_t room_len);

/* The day file: the images in order of reading, the index, 14 bytes for each, and a trailer of 8.
   An index entry is the insured number with blanks up to 12 and the position in two bytes; the
   trailer is where the index starts in four bytes, the count in two, the exclusive or of the
   index and 01. Numbers are high byte first, positions count from 0, images are read under
   terminal. Each call checks the whole file first: 40, 41, 42. With 41 the position is kvk_value
   (and kvk_place is 0, since a position can be more than 255). */
enum { KVK_DAY_MAX = 200, KVK_DAY_SIZE_MAX = 54008 };

/* How many cards the file has, by kvk_value. */
uint64_t kvk_day_count(const uint8_t *file, size_t file_len);

/* Where the image at this position starts in the file, by kvk_value; 44 if there is none. */
uint64_t kvk_day_image(const uint8_t *file, size_t file_len, uint64_t position);

/* The position of the first card with this insured number, 6 to 12 digits without blanks, by
   kvk_value; 44 if there is none, or if the number is no such. */
uint64_t kvk_day_find(const uint8_t *file, size_t file_len,
                      const uint8_t *number, size_t number_len);

/* Fills the room with the file and one card more at the end; kvk_value is the new file's length.
   Refuses the file, then 43, 45, then 41 for the new card with the position it would have. A
   refusal leaves the room unchanged, and what lies behind the new file stays. */
uint64_t kvk_day_add(const uint8_t *file, size_t file_len,
                     const uint8_t *card, size_t card_len,
                     uint8_t *room, size_t room_len);

/* The same from images alone: 40 for a length that is no multiple of 256, 41, 43, 45. */
uint64_t kvk_day_build(const uint8_t *images, size_t images_len,
                       uint8_t *room, size_t room_len);

/* The tree of a foreign card: lists the objects of at most 4,096 bytes, outer before inner, by
   address. Tags have one byte, bit '20' means a list, levels are 1 to 6. A listing has four
   words for each object: tag, level, the tag's address, the value's length; kvk_value tells how
   many objects. The room may be larger than needed; what lies behind the listing stays. Refuses
   54; then 50 to 53 by place, the lowest first, which is kvk_value (and kvk_place is 0), and at
   one place 51, 50, 53, 52; then 55 if the room is too small. A refusal leaves it unchanged. */
enum { KVK_TREE_MAX = 4096, KVK_TREE_ENTRY = 4 };
uint64_t kvk_tree(const uint8_t *bytes, size_t bytes_len,
                  uint16_t *room, size_t room_len);

/* Writes the bytes back from their listing and the values of the objects that are no lists, end
   to end in the listing's order; kvk_value tells how many bytes. Refuses 56 where these are not
   the listing and values of any bytes, then 55; a refusal leaves the room unchanged, and what
   lies behind the bytes stays. */
uint64_t kvk_tree_write(const uint16_t *listing, size_t listing_len,
                        const uint8_t *values, size_t values_len,
                        uint8_t *room, size_t room_len);

/* Whether the inner edition is nested in the outer one: kvk_value is 1 if it is, else 0. Nested is:
   both are well formed, and in each row the outer permits each length that the inner permits,
   takes each value of these lengths that the inner takes, and requires the object only if the
   inner does. The editions' numbers may differ. Nothing is refused: kvk_number is always 0. Where
   it is not nested, kvk_place is the clause, and kvk_tag the tag of the first row in card order
   that is not nested; of its clauses the first is told. The last two clauses come before all rows,
   the inner edition first, and have tag 0. Where it is nested, place and tag are 0. */
enum {
    KVK_LENGTH_NOT_NESTED = 1,    /* the inner row permits a length that the outer does not */
    KVK_VALUE_NOT_NESTED = 2,     /* the inner rule takes a value of a permitted inner length
                                     that the outer rule does not take */
    KVK_REQUIRED_NOT_NESTED = 3,  /* the outer requires the object, the inner does not */
    KVK_INNER_NOT_FORMED = 4,     /* the inner edition is not well formed or not 103 bytes */
    KVK_OUTER_NOT_FORMED = 5      /* the outer edition is not well formed or not 103 bytes */
};
uint64_t kvk_nested(const uint8_t *inner, size_t inner_len,
                    const uint8_t *outer, size_t outer_len);

/* Reads a length field: one byte up to 127, '81' and one byte from 128, '82' and two bytes from 256 on; what lies
   behind it does not matter. Answers the length and the bytes used, see kvk_length_value and kvk_length_used, or
   refuses: 70, then 71, then 72; length and bytes used are then 0. */
uint64_t kvk_length(const uint8_t *bytes, size_t bytes_len);

/* The numbers of an answer. The place is that of reading; when writing it is 0, but with 9 the
   index within the value. Where none is told, place and tag are 0; kvk_nested alone tells them
   with the number 0. */
/* From docs/NUMBERS.md, by tests/numbers. */
enum {
    /* Nothing: accepted, or done. Told in all calls. */
    KVK_ACCEPTED = 0,
    /* The image has not 256 bytes. Told in reading. */
    KVK_REFUSED_IMAGE_SIZE = 1,
    /* The edition is not well formed: a row, or, where all rows are right, its number, which is
       0. Tag: the first bad row's, or 0. Told in reading, writing, kvk_edition. */
    KVK_REFUSED_EDITION = 2,
    /* A fixed byte in 0 to 28 is wrong; when writing, address 0 or the last byte. Place: the
       first such. Told in reading, writing. */
    KVK_REFUSED_FIXED_BYTE = 3,
    /* The template's tag, the form of its length, or the length, which is 70 to 212. Place: 30,
       31, or 32 for a wrong byte behind '81'. Told in reading, writing. */
    KVK_REFUSED_TEMPLATE = 4,
    /* Where a tag is due, a byte is no tag of a later row. Place: its address. Told in
       reading. */
    KVK_REFUSED_TAG = 5,
    /* A required object is missing. Place: where the next tag, or the template's end, was met.
       Tag: the object's. Told in reading, writing. */
    KVK_REFUSED_MISSING = 6,
    /* A length that the row does not permit; shortest and longest are the ends of those that it
       does. Place: the length byte. Tag: the object's. Told in reading, writing. */
    KVK_REFUSED_LENGTH = 7,
    /* An object reaches past the template. Place: the object's tag. Tag: the object's. Told in
       reading. */
    KVK_REFUSED_PAST_TEMPLATE = 8,
    /* A byte is outside the rule's characters. Place: the first such. Tag: the object's. Told
       in reading, writing. */
    KVK_REFUSED_CHARACTER = 9,
    /* The characters are right and the value makes no sense: lead, code, birth or expiry, or
       the single letter D where it is not taken. Place: the first value byte. Tag: the
       object's. Told in reading, writing. */
    KVK_REFUSED_VALUE = 10,
    /* Names, or country, postal code and town, are too long together. Place: the tag of the
       group's first object that is present. Tag: that tag. Told in reading, writing. */
    KVK_REFUSED_SUM = 11,
    /* The template goes on behind the checksum. Place: the byte behind it. Told in reading. */
    KVK_REFUSED_BEHIND_CHECKSUM = 12,
    /* The checksum. Place: its value byte. Told in reading. */
    KVK_REFUSED_CHECKSUM = 13,
    /* The filler's tag. Place: its address. Told in reading. */
    KVK_REFUSED_FILLER_TAG = 14,
    /* A length byte of the filler. Place: the first wrong address. Told in reading. */
    KVK_REFUSED_FILLER_LENGTH = 15,
    /* A value byte of the filler. Place: the first wrong address. Told in reading. */
    KVK_REFUSED_FILLER_BYTE = 16,
    /* The byte or bytes after the filler. Place: the first wrong address. Told in reading. */
    KVK_REFUSED_LAST_BYTE = 17,
    /* A record, or a room that is to be filled, has not its size; when rewriting, an image.
       Told in all calls but those of day files, trees and length fields. */
    KVK_REFUSED_SIZE = 20,
    /* The numbers of record and edition differ. Told in kvk_write. */
    KVK_REFUSED_OTHER_EDITION = 22,
    /* Of two cards one has no validity, or the edition's rule for 8D is not expiry. Told in
       kvk_fresher. */
    KVK_REFUSED_FRESHER = 24,
    /* Printing: the status addition is missing, or none of the eighteen single signs. Told in
       kvk_front. */
    KVK_REFUSED_FRONT_ADDITION = 30,
    /* Printing: the validity is missing. Told in kvk_front. */
    KVK_REFUSED_FRONT_VALIDITY = 31,
    /* Printing: an underscore in a printed field. Told in kvk_front. */
    KVK_REFUSED_FRONT_UNDERSCORE = 32,
    /* A day file: its length, count or trailer does not fit; when building, the images' length
       is no multiple of 256. Told in kvk_day_count, kvk_day_image, kvk_day_find, kvk_day_add,
       kvk_day_build. */
    KVK_REFUSED_DAY_FILE = 40,
    /* A day file: an image, or the new card, is refused. Place: its position, in C in the
       value. Told in kvk_day_count, kvk_day_image, kvk_day_find, kvk_day_add, kvk_day_build. */
    KVK_REFUSED_DAY_IMAGE = 41,
    /* A day file: the index is not the one that the images give. Told in kvk_day_count,
       kvk_day_image, kvk_day_find, kvk_day_add. */
    KVK_REFUSED_DAY_INDEX = 42,
    /* A day file: more than 200 cards would result. Told in kvk_day_add, kvk_day_build. */
    KVK_REFUSED_DAY_FULL = 43,
    /* A day file: the number or position is not there, or the number is malformed. Told in
       kvk_day_image, kvk_day_find. */
    KVK_REFUSED_DAY_NOT_THERE = 44,
    /* A day file: the room is shorter than the new file. Told in kvk_day_add, kvk_day_build. */
    KVK_REFUSED_DAY_ROOM = 45,
    /* A tree: tag '00', or its low five bits all ones. Place: the tag, in C in the value. Told
       in kvk_tree. */
    KVK_REFUSED_TREE_TAG = 50,
    /* A tree: the length field, cut short by the enclosing end too. Place: its first byte, in C
       in the value. Told in kvk_tree. */
    KVK_REFUSED_TREE_LENGTH = 51,
    /* A tree: a value reaches past the enclosing end. Place: the tag, in C in the value. Told
       in kvk_tree. */
    KVK_REFUSED_TREE_PAST_END = 52,
    /* A tree: deeper than 6. Place: the tag, in C in the value. Told in kvk_tree. */
    KVK_REFUSED_TREE_DEPTH = 53,
    /* A tree: more than 4,096 bytes. Told in kvk_tree. */
    KVK_REFUSED_TREE_SIZE = 54,
    /* A tree: the room is too small. Told in kvk_tree, kvk_tree_write. */
    KVK_REFUSED_TREE_ROOM = 55,
    /* Writing a tree back: listing and values are not those of any bytes that the listing
       accepts. Told in kvk_tree_write. */
    KVK_REFUSED_TREE_LISTING = 56,
    /* More than 257 steps offered to the check of a plan. Told in kvk_check_plan. */
    KVK_REFUSED_PLAN_STEPS = 60,
    /* A length field of a foreign card: another first byte than '00' to '7F', '81', '82'. Told
       in kvk_length. */
    KVK_REFUSED_FIELD_FORM = 70,
    /* Such a field: cut short, or no byte at all. Told in kvk_length. */
    KVK_REFUSED_FIELD_CUT = 71,
    /* Such a field: a longer form than needed. Told in kvk_length. */
    KVK_REFUSED_FIELD_LONGER = 72
};

/* Reading is kvk_read, kvk_places, kvk_fresher and kvk_differences, which tell 20 for a room of
   another size before all else, and the commands list, batch, show, fresher, diff and front.
   kvk_plan, kvk_check_plan and the commands plan and check-plan tell what reading tells of the
   new image; a card of another size is 20 there, and comes first. Writing is kvk_write,
   kvk_renumber, the command make, and kvk_front; this last one looks at the record as writing
   under terminal does, and never tells 2. kvk_host and the command host answer a refused image
   with '6900' and tell no number but 20. The command length is kvk_length, tree is kvk_tree,
   and day the five calls of day files. kvk_nested refuses nothing: its number is 0, and where
   the inner table is not nested in the outer the place is the clause that fails and the tag the
   row's. */

/* The tags in card order: 80 fund name, 81 fund number, 8F office code, 82 insured number,
   83 status, 90 status addition, 84 title, 85 given name, 86 name prefix, 87 family name,
   88 birth date, 89 street, 8A country, 8B postal code, 8C town, 8D validity, 8E checksum. */
/* End of the numbers. */

/* The parts of an answer. Shortest and longest are 0 unless the number is 7. */
static inline unsigned kvk_number(uint64_t answer) { return (unsigned)(answer & 0xFF); }
static inline unsigned kvk_place(uint64_t answer) { return (unsigned)(answer >> 8 & 0xFF); }
static inline unsigned kvk_tag(uint64_t answer) { return (unsigned)(answer >> 16 & 0xFF); }
static inline unsigned kvk_shortest(uint64_t answer) { return (unsigned)(answer >> 24 & 0xFF); }
static inline unsigned kvk_longest(uint64_t answer) { return (unsigned)(answer >> 32 & 0xFF); }

/* The value of a call that has one; with a refusal 0, but with 41 the position and with 50 to 53
   the address. */
static inline unsigned kvk_value(uint64_t answer) { return (unsigned)(answer >> 40); }

/* The two parts of the value of kvk_length. */
static inline unsigned kvk_length_value(uint64_t answer) { return (unsigned)(answer >> 40 & 0xFFFF); }
static inline unsigned kvk_length_used(uint64_t answer) { return (unsigned)(answer >> 56); }

#ifdef __cplusplus
}
#endif

#endif
