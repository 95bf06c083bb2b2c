/* Changes one byte of accepted cards in every way, by the library and by the second program:
   one_byte CARDS SEED EDITIONS <IMAGES
   Exit status: 0 each change was refused, 1 one was not, or the two differ, 2 bad usage or too few cards. */
#include <stdio.h>
#include <stdlib.h>
#include <string.h>

#include "chance.h"
#include "draft.h"
#include "kvk.h"
#include "list.h"

enum { LENGTH_MAX = 212, TEMPLATE = 30 };

/* One card for each template length that there is; the first byte of an empty place is 0. */
struct collection {
    uint8_t images[LENGTH_MAX + 1][IMAGE_SIZE];
};

static unsigned long changes, numbers[256];

/* Both must answer this way. */
static uint64_t read_by_both(const uint8_t *table, const uint8_t *image)
{
    uint8_t ours[RECORD_SIZE], theirs[RECORD_SIZE];
    uint64_t our_answer = kvk_read(table, TABLE_SIZE, image, IMAGE_SIZE, ours, RECORD_SIZE);
    uint64_t their_answer = second_read(table, TABLE_SIZE, image, IMAGE_SIZE, theirs, RECORD_SIZE);

    if (our_answer == their_answer && memcmp(ours, theirs, RECORD_SIZE) == 0)
        return our_answer;
    fputs("one_byte: the library answers ", stdout);
    print_answer(stdout, our_answer);
    fputs(" and the second program ", stdout);
    print_answer(stdout, their_answer);
    putchar('\n');
    exit(1);
}

static size_t length_of_template(const uint8_t *image)
{
    return image[TEMPLATE + 1] == 0x81 ? image[TEMPLATE + 2] : image[TEMPLATE + 1];
}

/* The filler's last byte. */
static size_t last_address(const uint8_t *image)
{
    return length_of_template(image) == 93 ? 253 : 254;
}

static void change_byte(const uint8_t *table, uint8_t *image, size_t address)
{
    uint8_t right = image[address];
    unsigned step;

    for (step = 1; step < 256; step++) {
        uint64_t answer;
        image[address] = (uint8_t)(right + step);
        answer = read_by_both(table, image);
        changes++;
        numbers[answer & 0xFF]++;
        if (answer == 0) {
            printf("one_byte: L = %u, address %u, %02X for %02X: accepted\n", (unsigned)length_of_template(image),
                   (unsigned)address, (unsigned)image[address], (unsigned)right);
            exit(1);
        }
    }
    image[address] = right;
}

static void change_card(const uint8_t *table, const uint8_t *card)
{
    uint8_t image[IMAGE_SIZE];
    size_t last = last_address(card);
    size_t address;

    memcpy(image, card, IMAGE_SIZE);
    if (read_by_both(table, image) != 0) {
        fputs("one_byte: a card that is not changed is refused\n", stdout);
        exit(1);
    }
    for (address = TEMPLATE; address <= last; address++)
        change_byte(table, image, address);
}

/* Stored cards */

static void collect(struct collection *terminal_cards, struct collection *issue_cards)
{
    uint8_t table[TABLE_SIZE], image[IMAGE_SIZE], record[RECORD_SIZE];
    struct collection *cards[2] = {terminal_cards, issue_cards};
    uint64_t which;

    while (fread(image, 1, IMAGE_SIZE, stdin) == IMAGE_SIZE) {
        for (which = EDITION_TERMINAL; which <= EDITION_ISSUE; which++) {
            second_edition(which, table, TABLE_SIZE);
            if (second_read(table, TABLE_SIZE, image, IMAGE_SIZE, record, RECORD_SIZE) == 0)
                memcpy(cards[which - 1]->images[length_of_template(image)], image, IMAGE_SIZE);
        }
    }
}

/* How many are taken: 92, 93, 94, 127, 128 and 212 first, then as spread over the lengths as may be. */
static size_t change_collection(const uint8_t *table, struct collection *cards, size_t wanted)
{
    static const uint8_t edges[] = {92, 93, 94, 127, 128, 212};
    size_t taken = 0;
    size_t i;

    for (i = 0; i < wanted + 1000 && taken < wanted; i++) {
        size_t length = i < sizeof edges ? edges[i] : 70 + (i - sizeof edges) * 37 % 143;
        if (cards->images[length][0] == 0)
            continue;
        change_card(table, cards->images[length]);
        cards->images[length][0] = 0;
        taken++;
    }
    return taken;
}

static int change_stored(size_t wanted)
{
    static struct collection cards[2];
    uint8_t table[TABLE_SIZE];
    uint64_t which;

    collect(&cards[0], &cards[1]);
    for (which = EDITION_TERMINAL; which <= EDITION_ISSUE; which++) {
        second_edition(which, table, TABLE_SIZE);
        if (change_collection(table, &cards[which - 1], wanted) < wanted) {
            fputs("one_byte: too few accepted cards\n", stderr);
            return 0;
        }
    }
    return 1;
}

/* Other editions */

static void change_random(void)
{
    uint8_t table[TABLE_SIZE], record[RECORD_SIZE];
    struct draft draft;

    do
        chance_table(table);
    while (!chance_record(record, table));
    draft_card(&draft, record);
    change_card(table, draft.image);
}

static int is_number(const char *word)
{
    return *word != '\0' && strspn(word, "0123456789") == strlen(word);
}

int main(int count, char **words)
{
    unsigned long editions;
    unsigned number;

    if (count != 4 || !is_number(words[1]) || !is_number(words[2]) || !is_number(words[3])) {
        fputs("usage: one_byte CARDS SEED EDITIONS <IMAGES\n", stderr);
        return 2;
    }
    if (!change_stored(strtoul(words[1], NULL, 10)))
        return 2;
    chance_seed(strtoull(words[2], NULL, 10));
    for (editions = strtoul(words[3], NULL, 10); editions > 0; editions--)
        change_random();
    for (number = 0; number < 256; number++) {
        if (numbers[number] != 0)
            printf("%3u %9lu\n", number, numbers[number]);
    }
    printf("one_byte: %lu changed cards, each refused, by the library and by the second program\n", changes);
    return fflush(stdout) != 0 || ferror(stdout) ? 2 : 0;
}
