/* The corpora, random and the same at each run. */
#include "corpora.h"

#include <stdio.h>
#include <stdlib.h>
#include <string.h>

#include "chance.h"
#include "kvk.h"
#include "material.h"
#include "pairs.h"

#define READING .library = kvk_read, .second = second_read
#define WRITING .library = kvk_write, .second = second_write, .writing = 1
#define SHIPPED .group = "shipped editions"
#define NEAR .group = "other editions", .near = 1

struct corpus corpora[CORPORA] = {
    {SHIPPED, .name = "read accepted", READING},
    {SHIPPED, .name = "read refused", READING, .refused = 1},
    {SHIPPED, .name = "write accepted", WRITING},
    {SHIPPED, .name = "write refused", WRITING, .refused = 1},
    {NEAR, .name = "read accepted", READING},
    {NEAR, .name = "read refused", READING, .refused = 1},
    {NEAR, .name = "write accepted", WRITING},
    {NEAR, .name = "write refused", WRITING, .refused = 1}
};

/* A shipped edition. */
static void set_shipped(uint8_t *table, size_t which)
{
    second_edition(which % 2 == 0 ? EDITION_TERMINAL : EDITION_ISSUE, table, TABLE_SIZE);
}

/* A well-formed edition near a shipped one: a few rows with another length, rule or requirement, and another number. */
static void set_near(uint8_t *table, size_t which)
{
    uint8_t shipped[TABLE_SIZE];
    size_t rows;

    set_shipped(shipped, which);
    do {
        memcpy(table, shipped, TABLE_SIZE);
        for (rows = 1 + chance(6); rows > 0; rows--)
            change_row(table, chance(OBJECT_COUNT));
    } while (memcmp(table, shipped, TABLE_NUMBER) == 0);
    table[TABLE_NUMBER] = (uint8_t)(3 + chance(253));
}

static void make_item(struct item *item, const struct corpus *corpus, size_t which)
{
    static struct stock stock;

    do {
        if (corpus->near)
            set_near(item->table, which);
        else
            set_shipped(item->table, which);
    } while (!stock_up(&stock, item->table));
    memcpy(item->record, stock.record, RECORD_SIZE);
    if (corpus->refused) {
        damage_record(item->record, item->table);
        damage_card(&stock);
    }
    memcpy(item->image, stock.draft.image, IMAGE_SIZE);
}

static uint64_t answer_of(function *work, const struct item *item, int writing)
{
    uint8_t room[RECORD_SIZE];

    if (writing)
        return work(item->table, TABLE_SIZE, item->record, RECORD_SIZE, room, IMAGE_SIZE);
    return work(item->table, TABLE_SIZE, item->image, IMAGE_SIZE, room, RECORD_SIZE);
}

static void make_corpus(struct corpus *corpus)
{
    size_t i;

    fprintf(stderr, "bench: making %d items for '%s', %s\n", ITEMS, corpus->name, corpus->group);
    for (i = 0; i < ITEMS; i++) {
        uint64_t answer;
        do {
            make_item(&corpus->items[i], corpus, i);
            answer = answer_of(corpus->second, &corpus->items[i], corpus->writing);
        } while ((answer != 0) != corpus->refused);
        if (answer_of(corpus->library, &corpus->items[i], corpus->writing) != answer) {
            fputs("bench: the library and the second program differ\n", stderr);
            exit(1);
        }
    }
}

void make_corpora(void)
{
    size_t i;

    chance_seed(1);
    for (i = 0; i < CORPORA; i++)
        make_corpus(&corpora[i]);
}

/* Files */

typedef size_t transfer(struct item *items, size_t count, FILE *file);

static size_t put_items(struct item *items, size_t count, FILE *file)
{
    return fwrite(items, sizeof *items, count, file);
}

static size_t get_items(struct item *items, size_t count, FILE *file)
{
    return fread(items, sizeof *items, count, file);
}

static int transfer_all(const char *path, const char *mode, transfer *transfer_items)
{
    FILE *file = fopen(path, mode);
    int done = file != NULL;
    size_t i;

    if (file == NULL)
        return 0;
    for (i = 0; i < CORPORA; i++)
        done = done && transfer_items(corpora[i].items, ITEMS, file) == ITEMS;
    for (i = 0; i < gate_count; i++)
        done = done && transfer_items(gates[i].items, COUNTED, file) == COUNTED;
    return fclose(file) == 0 && done;
}

int save_items(const char *path)
{
    return transfer_all(path, "wb", put_items);
}

int load_items(const char *path)
{
    return transfer_all(path, "rb", get_items);
}
