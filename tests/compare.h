/* One call of the library and of the second program, with what is lent to both. */
#ifndef TESTS_COMPARE_H
#define TESTS_COMPARE_H

#include "material.h"

enum { LENT_COUNT = 4, PART_MAX = 56000 };

struct bytes {
    size_t length;
    uint8_t at[PART_MAX];
};

struct comparison;

struct result {
    uint64_t answer;
    struct bytes room;
    const char *fault;
};

/* The room holds what it has before the call. */
struct call {
    const struct comparison *kind;
    struct bytes lent[LENT_COUNT];
    struct bytes room;
    uint64_t number;
};

/* The same as a function gets it. */
struct lent {
    const uint8_t *at[LENT_COUNT];
    size_t length[LENT_COUNT];
    uint8_t *room;
    size_t room_length;
    uint64_t number;
};

typedef uint64_t work(const struct lent *lent);

/* The size of a part and its address are a multiple of its word. */
struct part {
    const char *name;
    size_t word;
};

/* parts says what is lent, with a name NULL behind the last; room_word is that of the room. Where judge is not NULL, it
   says what is wrong with the library's answer, or NULL; else it has to be the second program's. Where count_fixed is not
   NULL, so many calls of make_fixed are compared before the random ones. */
struct comparison {
    const char *name;
    struct part parts[LENT_COUNT + 1];
    size_t room_word;
    size_t weight;
    work *library;
    work *second;
    void (*make)(struct call *call);
    const char *(*judge)(const struct call *call, const struct result *ours, const struct result *theirs);
    size_t (*count_fixed)(void);
    void (*make_fixed)(struct call *call, size_t which);
};

extern const struct comparison reading, writing, renumbering, length_fields;
extern const struct comparison object_places, host_commands, fresher_cards, differences, plans, plan_checks, fronts;
extern const struct comparison day_counts, day_images, day_finds, day_adds, day_builds;
extern const struct comparison trees, tree_writings, nestings;

/* Material */

/* Wide: each row but 8E optional, text, 1 to 28. */
extern uint8_t terminal_table[TABLE_SIZE], issue_table[TABLE_SIZE], wide_table[TABLE_SIZE];

void fill_stock(void);
/* The cards of day files, once there is a stock. */
void fill_pool(void);
/* Now and then an entry is made anew. */
void renew_stock(void);
const struct stock *any_stock(void);

void set_bytes(struct bytes *bytes, const uint8_t *from, size_t length);
void set_room(struct bytes *bytes, size_t length);
/* One of them, now and then, gets another size. */
void change_sizes(struct call *call);

/* The entry's own table or another one, right or wrong. */
void make_edition(struct bytes *edition, const struct stock *entry);
/* The entry's card or record with no, one or more changes. */
void make_image(struct bytes *image, const struct stock *entry);
void make_record(struct bytes *record, const struct stock *entry);
/* Another card of the entry's table that differs in a few things, accepted as a rule. */
void make_variation(struct bytes *image, const struct stock *entry);

#endif
