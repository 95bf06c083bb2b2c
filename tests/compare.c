/* Compares the library with the second program over random cases, up to the first difference:
   compare SEED COUNT [FROM] [KIND]
   The cases have numbers from FROM on, or from 0. Seed and number make the case, so a run can go on where another ended, and
   one case can be tried again. With a kind, as it stands in the table that is printed, only such cases are compared.
   Exit status: 0 no difference, 1 a difference, 2 bad usage. */
#include "compare.h"

#include <stdio.h>
#include <stdlib.h>
#include <string.h>

#include "chance.h"
#include "kvk.h"
#include "list.h"

enum { MARGIN = 64, GUARD = 0x5A, LENDING = 16, REPORTS = 10, BLOCK = 100000 };

static const struct comparison *const kinds_compared[] = {
    &reading, &writing, &renumbering, &length_fields, &object_places, &host_commands, &fresher_cards,
    &differences, &plans, &plan_checks, &fronts,
    &day_counts, &day_images, &day_finds, &day_adds, &day_builds,
    &trees, &tree_writings, &nestings
};

enum { KIND_COUNT = sizeof kinds_compared / sizeof kinds_compared[0] };

/* Lending */

struct place {
    uint8_t memory[MARGIN + PART_MAX + MARGIN];
    uint8_t *at;
};

static uint8_t *lend(struct place *place, const struct bytes *bytes, size_t word)
{
    size_t shift = chance(LENDING) / word * word;

    memset(place->memory, GUARD, bytes->length + MARGIN + MARGIN);
    place->at = place->memory + MARGIN - shift;
    memcpy(place->at, bytes->at, bytes->length);
    return place->at;
}

static int is_guard(const uint8_t *from, const uint8_t *to)
{
    while (from < to && *from == GUARD)
        from++;
    return from == to;
}

static int margins_are_whole(const struct place *place, size_t length)
{
    return is_guard(place->memory, place->at)
        && is_guard(place->at + length, place->memory + length + MARGIN + MARGIN);
}

static int is_unchanged(const struct place *place, const struct bytes *bytes)
{
    return margins_are_whole(place, bytes->length) && memcmp(place->at, bytes->at, bytes->length) == 0;
}

/* 1 for parts that the kind has not. */
static size_t part_word(const struct comparison *kind, size_t part)
{
    size_t i;

    for (i = 0; kind->parts[i].name != NULL; i++) {
        if (i == part)
            return kind->parts[i].word;
    }
    return 1;
}

static void run(work *function, const struct call *call, struct result *result)
{
    static struct place places[LENT_COUNT], room;
    struct lent lent;
    size_t i;

    for (i = 0; i < LENT_COUNT; i++) {
        lent.at[i] = lend(&places[i], &call->lent[i], part_word(call->kind, i));
        lent.length[i] = call->lent[i].length;
    }
    lent.room = lend(&room, &call->room, call->kind->room_word);
    lent.room_length = call->room.length;
    lent.number = call->number;
    result->answer = function(&lent);
    set_bytes(&result->room, lent.room, lent.room_length);
    result->fault = margins_are_whole(&room, lent.room_length) ? NULL : "memory beside the room was written to";
    for (i = 0; i < LENT_COUNT; i++) {
        if (!is_unchanged(&places[i], &call->lent[i]))
            result->fault = "lent memory was written to";
    }
}

static uint8_t *exact_copy_of(const struct bytes *bytes)
{
    uint8_t *copy = malloc(bytes->length);

    if (copy == NULL && (copy = malloc(1)) == NULL) {
        fputs("compare: out of memory\n", stderr);
        exit(2);
    }
    memcpy(copy, bytes->at, bytes->length);
    return copy;
}

/* In heap blocks of the exact sizes, where valgrind sees a byte read or written beside them. */
static void run_exact(work *function, const struct call *call, struct result *result)
{
    uint8_t *copies[LENT_COUNT];
    struct lent lent;
    size_t i;

    for (i = 0; i < LENT_COUNT; i++) {
        copies[i] = exact_copy_of(&call->lent[i]);
        lent.at[i] = copies[i];
        lent.length[i] = call->lent[i].length;
    }
    lent.room = exact_copy_of(&call->room);
    lent.room_length = call->room.length;
    lent.number = call->number;
    result->answer = function(&lent);
    set_bytes(&result->room, lent.room, lent.room_length);
    result->fault = NULL;
    for (i = 0; i < LENT_COUNT; i++)
        free(copies[i]);
    free(lent.room);
}

/* Differences */

static void print_bytes(const char *name, const struct bytes *bytes)
{
    size_t i;

    printf("%s (%u byte%s) ", name, (unsigned)bytes->length, bytes->length == 1 ? "" : "s");
    for (i = 0; i < bytes->length; i++)
        printf("%02X", (unsigned)bytes->at[i]);
    putchar('\n');
}

static void print_result(const char *name, const struct result *result)
{
    printf("%s answers ", name);
    print_answer(stdout, result->answer);
    printf(" (%016llX)\n", (unsigned long long)result->answer);
    if (result->fault != NULL)
        printf("%s: %s\n", name, result->fault);
    print_bytes("  room after", &result->room);
}

static int is_same(const struct result *one, const struct result *other)
{
    return one->answer == other->answer && one->fault == NULL && other->fault == NULL
        && memcmp(one->room.at, other->room.at, one->room.length) == 0;
}

/* The answer; ends the program at a difference. */
static uint64_t compare(const struct call *call, unsigned long number)
{
    static struct result ours, theirs;
    void (*run_it)(work *, const struct call *, struct result *) = chance(16) ? run : run_exact;
    size_t i;

    run_it(call->kind->library, call, &ours);
    run_it(call->kind->second, call, &theirs);
    if (call->kind->judge != NULL && ours.fault == NULL)
        ours.fault = call->kind->judge(call, &ours, &theirs);
    if (call->kind->judge != NULL ? ours.fault == NULL : is_same(&ours, &theirs))
        return ours.answer;
    printf("case %lu, %s, differs\n", number, call->kind->name);
    for (i = 0; call->kind->parts[i].name != NULL; i++)
        print_bytes(call->kind->parts[i].name, &call->lent[i]);
    printf("number %llu\n", (unsigned long long)call->number);
    print_bytes("room before", &call->room);
    print_result("library", &ours);
    print_result("second", &theirs);
    exit(1);
}

enum { LARGEST = 600 };

static void compare_edition(uint64_t which, size_t room_len)
{
    uint8_t ours[LARGEST], theirs[LARGEST];
    uint64_t our_answer, their_answer;

    memset(ours, GUARD, sizeof ours);
    memset(theirs, GUARD, sizeof theirs);
    our_answer = kvk_edition(which, ours, room_len);
    their_answer = second_edition(which, theirs, room_len);
    if (our_answer == their_answer && memcmp(ours, theirs, sizeof ours) == 0)
        return;
    printf("edition %llu, a room of %u bytes, differs\nlibrary answers ", (unsigned long long)which, (unsigned)room_len);
    print_answer(stdout, our_answer);
    fputs("\nsecond answers ", stdout);
    print_answer(stdout, their_answer);
    putchar('\n');
    exit(1);
}

static void compare_editions(void)
{
    static const uint64_t which[] = {0, 1, 2, 3, 256, 257, 258, UINT64_C(1) << 32, (UINT64_C(1) << 32) + 1, UINT64_MAX};
    static const size_t lengths[] = {0, 1, 101, 102, 103, 104, 479, LARGEST};
    size_t i, k;

    for (i = 0; i < sizeof which / sizeof which[0]; i++) {
        for (k = 0; k < sizeof lengths / sizeof lengths[0]; k++)
            compare_edition(which[i], lengths[k]);
    }
}

/* The run */

/* An index into kinds_compared, by weight; KIND_COUNT if there is no such kind. */
static size_t any_kind(const char *name)
{
    size_t total = 0;
    size_t i, dice;

    for (i = 0; name != NULL && i < KIND_COUNT && strcmp(name, kinds_compared[i]->name) != 0; i++)
        continue;
    if (name != NULL)
        return i;
    for (i = 0; i < KIND_COUNT; i++)
        total += kinds_compared[i]->weight;
    dice = chance(total);
    for (i = 0; dice >= kinds_compared[i]->weight; i++)
        dice -= kinds_compared[i]->weight;
    return i;
}

static void print_counts(unsigned long counts[KIND_COUNT][256])
{
    unsigned number;
    size_t i;

    for (i = 0; i < KIND_COUNT; i++) {
        for (number = 0; number < 256; number++) {
            if (counts[i][number] != 0)
                printf("%-12s %3u %9lu\n", kinds_compared[i]->name, number, counts[i][number]);
        }
    }
}

static void start_call(struct call *call, const struct comparison *kind)
{
    size_t i;

    call->kind = kind;
    call->number = 0;
    call->room.length = 0;
    for (i = 0; i < LENT_COUNT; i++)
        call->lent[i].length = 0;
}

/* These have 1 and on as their number, random ones 0, unless their maker says otherwise. */
static void compare_fixed(struct call *call, const struct comparison *kind, unsigned long *counts)
{
    size_t count = kind->count_fixed == NULL ? 0 : kind->count_fixed();
    size_t i;

    for (i = 0; i < count; i++) {
        start_call(call, kind);
        call->number = i + 1;
        kind->make_fixed(call, i);
        counts[counted_by(compare(call, i))]++;
    }
}

/* How far the run is, at each tenth of it. */
static void tell_progress(unsigned long done, unsigned long count, unsigned long next)
{
    if (count < REPORTS || done % (count / REPORTS) != 0)
        return;
    fprintf(stderr, "compare: %lu of %lu cases, no difference yet; the next has number %lu\n", done, count, next);
}

static void compare_all_fixed(struct call *call, const char *name, unsigned long counts[KIND_COUNT][256])
{
    size_t i;

    fill_stock();
    fill_pool();
    for (i = 0; i < KIND_COUNT; i++) {
        if (name == NULL || any_kind(name) == i)
            compare_fixed(call, kinds_compared[i], counts[i]);
    }
}

/* The kind of the case with this number, and the stock as it finds it if that of the number before is there. Each block has
   its own stock from its first case on, so that no more than a block has to be gone through to get to a number. */
static size_t prepare_case(uint64_t seed, unsigned long number, const char *name)
{
    size_t kind;

    if (number % BLOCK == 0) {
        chance_seed((seed << 40) + (UINT64_C(1) << 39) + number / BLOCK);
        fill_stock();
        fill_pool();
    }
    chance_seed((seed << 40) + number);
    kind = any_kind(name);
    renew_stock();
    return kind;
}

static void compare_all(uint64_t seed, unsigned long count, unsigned long from, const char *name)
{
    static unsigned long counts[KIND_COUNT][256];
    static struct call call;
    unsigned long number;

    chance_seed(seed);
    compare_editions();
    if (from == 0)
        compare_all_fixed(&call, name, counts);
    for (number = from - from % BLOCK; number < from; number++)
        prepare_case(seed, number, name);
    for (number = from; number < from + count; number++) {
        size_t kind = prepare_case(seed, number, name);
        start_call(&call, kinds_compared[kind]);
        kinds_compared[kind]->make(&call);
        counts[kind][counted_by(compare(&call, number))]++;
        tell_progress(number - from + 1, count, number + 1);
    }
    print_counts(counts);
    printf("%lu case%s, no difference\n", count, count == 1 ? "" : "s");
}

static int is_number(const char *word)
{
    return *word != '\0' && strspn(word, "0123456789") == strlen(word);
}

int main(int count, char **words)
{
    int has_from = count > 3 && is_number(words[3]);
    const char *name = count > 3 + has_from ? words[3 + has_from] : NULL;

    if (count < 3 || count > 4 + has_from || !is_number(words[1]) || !is_number(words[2]) || any_kind(name) == KIND_COUNT) {
        fputs("usage: compare SEED COUNT [FROM] [KIND]\n", stderr);
        return 2;
    }
    compare_all(strtoull(words[1], NULL, 10), strtoul(words[2], NULL, 10), has_from ? strtoul(words[3], NULL, 10) : 0, name);
    return fflush(stdout) != 0 || ferror(stdout) ? 2 : 0;
}
