/* Times the library and the second program, called in turn over the same cards and records, or makes the calls that a counter of
   instructions follows between marks. The floor is what no reading could do without: the exclusive or of 256 bytes and a copy
   of a record.

   usage: bench make FILE     the cards and records
          bench time FILE     a line for each corpus: nanoseconds of a call, and the ratio
          bench count FILE    a line for each pair of marks: what was called, and how often
          bench parts FILE    the same, over the gates */
#define _POSIX_C_SOURCE 199309L
#include <stdio.h>
#include <stdlib.h>
#include <string.h>
#include <time.h>

#include "corpora.h"
#include "kvk.h"
#include "mark.h"
#include "places.h"

enum { REPEATS = 40, ROUNDS = 21 };

static volatile uint64_t sink;
static uint8_t room[RECORD_SIZE];

/* Calls */

static uint64_t answer_of(function *work, const struct item *item, int writing)
{
    if (writing)
        return work(item->table, TABLE_SIZE, item->record, RECORD_SIZE, room, IMAGE_SIZE);
    return work(item->table, TABLE_SIZE, item->image, IMAGE_SIZE, room, RECORD_SIZE);
}

static uint64_t least_work(const struct item *item)
{
    uint8_t sum = 0;
    size_t i;

    for (i = 0; i < IMAGE_SIZE; i++)
        sum ^= item->image[i];
    memcpy(room, item->record, RECORD_SIZE);
    return sum;
}

static uint64_t no_least_work(const struct item *item)
{
    (void)item;
    return 0;
}

static uint64_t no_work(const uint8_t *edition, size_t edition_len, const uint8_t *source, size_t source_len,
                        uint8_t *filled, size_t filled_len)
{
    (void)edition, (void)edition_len, (void)source, (void)source_len, (void)filled, (void)filled_len;
    return 0;
}

/* Called through pointers, as the others are, so that the compiler leaves none of it out. */
typedef uint64_t floor_function(const struct item *item);
static floor_function *volatile floor_work = least_work;
static floor_function *volatile no_floor_work = no_least_work;
static function *volatile nothing = no_work;

/* Times */

/* The time on the processor, so that other programs hardly count. */
static double now(void)
{
    struct timespec time;

    clock_gettime(CLOCK_PROCESS_CPUTIME_ID, &time);
    return (double)time.tv_sec * 1e9 + (double)time.tv_nsec;
}

static double time_calls(const struct corpus *corpus, function *work)
{
    double start = now();
    size_t repeat, i;

    for (repeat = 0; repeat < REPEATS; repeat++) {
        for (i = 0; i < ITEMS; i++)
            sink += answer_of(work, &corpus->items[i], corpus->writing);
    }
    return (now() - start) / (ITEMS * REPEATS);
}

static double time_floor(const struct corpus *corpus)
{
    double start = now();
    size_t repeat, i;

    for (repeat = 0; repeat < REPEATS; repeat++) {
        for (i = 0; i < ITEMS; i++)
            sink += floor_work(&corpus->items[i]);
    }
    return (now() - start) / (ITEMS * REPEATS);
}

static int by_size(const void *left, const void *right)
{
    double one = *(const double *)left;
    double other = *(const double *)right;

    return (one > other) - (one < other);
}

static double median(double *times)
{
    qsort(times, ROUNDS, sizeof *times, by_size);
    return times[ROUNDS / 2];
}

static void time_corpus(const struct corpus *corpus)
{
    double library[ROUNDS], second[ROUNDS], least[ROUNDS], ratio[ROUNDS];
    size_t round;

    fprintf(stderr, "bench: timing '%s', %s, %d of %d\n", corpus->name, corpus->group, (int)(corpus - corpora) + 1,
            (int)CORPORA);
    for (round = 0; round < ROUNDS; round++) {
        library[round] = time_calls(corpus, corpus->library);
        second[round] = time_calls(corpus, corpus->second);
        least[round] = time_floor(corpus);
        ratio[round] = library[round] / second[round];
    }
    printf("%s\t%s\t%.1f\t%.1f\t%.1f\t%.3f\n", corpus->group, corpus->name, median(library), median(second), median(least),
           median(ratio));
}

static void time_corpora(void)
{
    size_t i;

    printf("%d\t%d\n", ROUNDS, ITEMS * REPEATS);
    for (i = 0; i < CORPORA; i++)
        time_corpus(&corpora[i]);
}

/* Instructions */

static void tell_label(const char *group, const char *name, const char *who)
{
    printf("%s\t%s\t%s\t%d\n", group, name, who, (int)COUNTED);
}

/* Behind the mark something is done, so that it is called and not jumped to, which valgrind would not see. */
static void end_count(void)
{
    mark();
    sink++;
}

static void count_calls(const struct corpus *corpus, const char *who, function *work)
{
    size_t i;

    tell_label(corpus->group, corpus->name, who);
    mark();
    for (i = 0; i < COUNTED; i++)
        sink += answer_of(work, &corpus->items[i], corpus->writing);
    end_count();
}

static void count_floor(const struct corpus *corpus, const char *who, floor_function *work)
{
    size_t i;

    tell_label(corpus->group, corpus->name, who);
    mark();
    for (i = 0; i < COUNTED; i++)
        sink += work(&corpus->items[i]);
    end_count();
}

static void count_gate(const char *group, const struct gate *gate, size_t room_length, const char *who, function *work)
{
    size_t i;

    tell_label(group, gate->name, who);
    mark();
    for (i = 0; i < COUNTED; i++) {
        const struct item *item = &gate->items[i];
        sink += work(item->table, TABLE_SIZE, gate->writing ? item->record : item->image, gate->source_length, room,
                     room_length);
    }
    end_count();
}

static void count_corpora(void)
{
    size_t i;

    for (i = 0; i < CORPORA; i++) {
        count_calls(&corpora[i], "library", corpora[i].library);
        count_calls(&corpora[i], "second", corpora[i].second);
        count_calls(&corpora[i], "nothing", nothing);
        count_floor(&corpora[i], "floor", floor_work);
        count_floor(&corpora[i], "no floor", no_floor_work);
    }
}

/* Called through pointers that the compiler does not look through, so that the loops are the same. */
static void count_three(const char *group, const struct gate *gate, size_t room_length, function *volatile library,
                        function *volatile second)
{
    count_gate(group, gate, room_length, "library", library);
    count_gate(group, gate, room_length, "second", second);
    count_gate(group, gate, room_length, "nothing", nothing);
}

static void count_gates(void)
{
    size_t i;

    for (i = 0; i < gate_count; i++) {
        const struct gate *gate = &gates[i];
        if (gate->writing)
            count_three("gates of writing", gate, gate->room_length, kvk_write, second_write);
        else
            count_three("gates of reading", gate, gate->room_length, kvk_read, second_read);
        if (!gate->writing && gate->number == 0)
            count_three("places", gate, KVK_PLACES_SIZE, kvk_places, second_places);
    }
}

/* The run */

static int make(const char *path)
{
    make_corpora();
    make_gates();
    return save_items(path);
}

static int run(const char *path, void (*work)(void))
{
    if (!load_items(path))
        return 0;
    work();
    return fflush(stdout) == 0 && !ferror(stdout);
}

/* 0 if it cannot be done, -1 if there is no such word. */
static int do_word(const char *word, const char *path)
{
    if (strcmp(word, "make") == 0)
        return make(path);
    if (strcmp(word, "time") == 0)
        return run(path, time_corpora);
    if (strcmp(word, "count") == 0)
        return run(path, count_corpora);
    return strcmp(word, "parts") == 0 ? run(path, count_gates) : -1;
}

int main(int count, char **words)
{
    int done = count == 3 ? do_word(words[1], words[2]) : -1;

    if (done < 0) {
        fputs("usage: bench make FILE | time FILE | count FILE | parts FILE\n", stderr);
        return 2;
    }
    if (done == 0)
        fprintf(stderr, "bench: %s could not be read or written\n", words[2]);
    return done ? 0 : 3;
}
