/* Written from document 01 alone, without a look at the library. */
#include <stdio.h>
#include <stdlib.h>
#include <string.h>

#include "card.h"
#include "cases.h"
#include "chance.h"
#include "front.h"
#include "grow.h"
#include "list.h"
#include "samples.h"

/* The listing program; name is its first argument, or NULL. Input is read only if the edition is known. */
static int list(const char *name)
{
    uint8_t table[TABLE_SIZE];
    uint8_t bytes[IMAGE_SIZE + 1];
    uint64_t which = name == NULL ? EDITION_ISSUE : strcmp(name, "terminal") == 0 ? EDITION_TERMINAL : 0;
    uint64_t answer = second_edition(which, table, TABLE_SIZE);

    if (answer != 0)
        list_refusal(stdout, answer);
    else
        list_image(stdout, table, bytes, fread(bytes, 1, sizeof bytes, stdin));
    return 0;
}

static int batch(const char *name)
{
    uint8_t table[TABLE_SIZE];
    uint8_t image[IMAGE_SIZE];
    uint64_t which = strcmp(name, "terminal") == 0 ? EDITION_TERMINAL
                   : strcmp(name, "issue") == 0 ? EDITION_ISSUE : 0;
    uint64_t answer = second_edition(which, table, TABLE_SIZE);
    size_t length;

    if (answer != 0) {
        list_refusal(stdout, answer);
        return 0;
    }
    while ((length = fread(image, 1, IMAGE_SIZE, stdin)) > 0)
        list_image(stdout, table, image, length);
    return 0;
}

/* The four lines of a card that terminal accepts. */
static int front(uint64_t layout)
{
    uint8_t table[TABLE_SIZE], image[IMAGE_SIZE + 1], record[RECORD_SIZE], room[FRONT_SIZE];
    size_t length = fread(image, 1, sizeof image, stdin);
    uint64_t answer;
    size_t i;

    second_edition(EDITION_TERMINAL, table, TABLE_SIZE);
    answer = second_read(table, TABLE_SIZE, image, length, record, RECORD_SIZE);
    if (answer == 0)
        answer = second_front(record, RECORD_SIZE, layout, room, FRONT_SIZE);
    if (answer != 0)
        list_refusal(stdout, answer);
    for (i = 0; answer == 0 && i < LINE_COUNT; i++)
        printf("|%.*s|\n", (int)LINE_SIZE, (const char *)room + i * LINE_SIZE);
    return 0;
}

/* As openssl's asn1parse tells it. */
static int tree(void)
{
    static uint8_t bytes[TREE_MAX + 1];
    static uint16_t listing[TREE_WORDS_MAX];
    uint64_t answer = second_tree(bytes, fread(bytes, 1, sizeof bytes, stdin), listing, TREE_WORDS_MAX);
    const uint16_t *entry = listing;
    size_t i;

    if ((answer & 0xFF) != 0)
        printf("REFUSED %u %u\n", (unsigned)(answer & 0xFF), (unsigned)(answer >> 40));
    for (i = 0; (answer & 0xFF) == 0 && i < answer >> 40; i++, entry += TREE_ENTRY)
        printf("%u %u %u %u %s\n", entry[2], entry[1] - 1u, entry[3] > 255 ? 4u : entry[3] > 127 ? 3u : 2u, entry[3],
               (entry[0] & 0x20) != 0 ? "cons" : "prim");
    return 0;
}

static int grow(const char *seed)
{
    static uint8_t bytes[TREE_MAX];

    chance_seed(strtoull(seed, NULL, 10));
    fwrite(bytes, 1, grow_tree(bytes, chance(4) ? 200 : TREE_MAX), stdout);
    return 0;
}

static int is_number(const char *word)
{
    return *word != '\0' && strspn(word, "0123456789") == strlen(word);
}

static int samples(const char *folder)
{
    if (write_samples(folder) == 0)
        return 0;
    fprintf(stderr, "second: cannot write the samples into %s\n", folder);
    return 1;
}

static int usage(void)
{
    fputs("second list [terminal] | batch [terminal|issue] | front [with] | tree | grow SEED | samples DIR\n"
          "     | cases SEED | sweeps | answer | tally | pick NUMBER\n", stderr);
    return 2;
}

static int run_on_cases(int count, char **words)
{
    int has_number = count == 3 && is_number(words[2]);

    if (strcmp(words[1], "cases") == 0 && has_number)
        write_corpus(strtoull(words[2], NULL, 10));
    else if (strcmp(words[1], "sweeps") == 0)
        write_sweeps();
    else if (strcmp(words[1], "answer") == 0)
        answer_cases(stdin, stdout);
    else if (strcmp(words[1], "tally") == 0)
        tally_cases(stdin, stdout);
    else if (strcmp(words[1], "pick") == 0 && has_number && strtoul(words[2], NULL, 10) > 0)
        pick_images(stdin, stdout, strtoul(words[2], NULL, 10));
    else
        return usage();
    return 0;
}

static int run(int count, char **words)
{
    if (count < 2)
        return usage();
    if (strcmp(words[1], "list") == 0)
        return list(count > 2 ? words[2] : NULL);
    if (strcmp(words[1], "batch") == 0)
        return batch(count > 2 ? words[2] : "issue");
    if (strcmp(words[1], "front") == 0)
        return front(count > 2 && strcmp(words[2], "with") == 0);
    if (strcmp(words[1], "tree") == 0)
        return tree();
    if (strcmp(words[1], "grow") == 0 && count == 3 && is_number(words[2]))
        return grow(words[2]);
    if (strcmp(words[1], "samples") == 0 && count == 3)
        return samples(words[2]);
    return run_on_cases(count, words);
}

int main(int count, char **words)
{
    int status = run(count, words);

    if (fflush(stdout) != 0 || ferror(stdout)) {
        fputs("second: cannot write\n", stderr);
        return 1;
    }
    return status;
}
