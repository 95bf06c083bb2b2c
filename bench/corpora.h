/* What the benchmark calls with: corpora of cards and records, accepted or refused, under the two shipped editions in turn and under
   editions near them; and gates, cards and records that are each refused at one place of the work. */
#ifndef BENCH_CORPORA_H
#define BENCH_CORPORA_H

#include "card.h"

/* Items of a corpus are timed, the first of them are counted; a gate has no more than are counted. */
enum { ITEMS = 512, COUNTED = 64, CORPORA = 8 };

typedef uint64_t function(const uint8_t *edition, size_t edition_len,
                          const uint8_t *source, size_t source_len,
                          uint8_t *room, size_t room_len);

struct item {
    uint8_t table[TABLE_SIZE];
    uint8_t image[IMAGE_SIZE];
    uint8_t record[RECORD_SIZE];
};

struct corpus {
    const char *group;
    const char *name;
    function *library;
    function *second;
    int writing;
    int refused;
    int near;
    struct item items[ITEMS];
};

/* Each card or record is refused with the number, or accepted with 0, in a call with these lengths. */
struct gate {
    const char *name;
    int writing;
    uint8_t number;
    size_t source_length;
    size_t room_length;
    int (*change)(struct item *item);
    struct item items[COUNTED];
};

extern struct corpus corpora[CORPORA];
extern struct gate gates[];
extern const size_t gate_count;

void make_corpora(void);
/* Of the accepted corpora's items. */
void make_gates(void);

/* 0 if it cannot be done. */
int save_items(const char *path);
int load_items(const char *path);

#endif
