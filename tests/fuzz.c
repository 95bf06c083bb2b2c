/* The target of a coverage-guided search: an input is a stored case of reading, writing or numbering, as second/README.md gives it. What is
   accepted has to come back: a card that is read and written again, a record that is written and read again.
   Without the search (-DSPLIT) it writes each such case on standard input into a file of its own: fuzz FOLDER */
#include <stdio.h>
#include <stdlib.h>
#include <string.h>

#include "casefile.h"

static int is_wanted(uint8_t kind)
{
    return kind == 'R' || kind == 'W' || kind == 'N';
}

#ifdef SPLIT

int main(int count, char **words)
{
    static struct test_case test_case;
    unsigned number = 0;

    while (count == 2 && get_case(stdin, &test_case) == 1) {
        char name[4096];
        FILE *out;
        if (!is_wanted(test_case.kind))
            continue;
        snprintf(name, sizeof name, "%s/%05u", words[1], number++);
        out = fopen(name, "wb");
        if (out == NULL)
            return 1;
        put_case(out, &test_case);
        if (fclose(out) != 0)
            return 1;
    }
    return count == 2 ? 0 : 2;
}

#else

static void fail(const char *what)
{
    fprintf(stderr, "fuzz: %s\n", what);
    abort();
}

static void read_back(const struct test_case *test_case)
{
    const struct span *image = &test_case->spans[0];
    const uint8_t *table = test_case->editions[0].table;
    uint8_t record[RECORD_SIZE], again[IMAGE_SIZE];
    uint64_t answer = second_read(table, TABLE_SIZE, image->bytes, image->length, record, RECORD_SIZE);
    size_t i;

    for (i = 0; answer != 0 && i < RECORD_SIZE; i++) {
        if (record[i] != 0)
            fail("a refused reading leaves a record");
    }
    if (answer != 0)
        return;
    if (second_write(table, TABLE_SIZE, record, RECORD_SIZE, again, IMAGE_SIZE) != 0)
        fail("an accepted card cannot be written");
    if (memcmp(again, image->bytes, IMAGE_SIZE) != 0)
        fail("an accepted card is written otherwise");
}

static void write_back(const struct test_case *test_case)
{
    const uint8_t *table = test_case->editions[0].table;
    uint8_t image[IMAGE_SIZE], record[RECORD_SIZE], again[IMAGE_SIZE];

    if (second_write(table, TABLE_SIZE, test_case->record, RECORD_SIZE, image, IMAGE_SIZE) != 0)
        return;
    if (second_read(table, TABLE_SIZE, image, IMAGE_SIZE, record, RECORD_SIZE) != 0)
        fail("a written card is refused");
    if (second_write(table, TABLE_SIZE, record, RECORD_SIZE, again, IMAGE_SIZE) != 0
        || memcmp(again, image, IMAGE_SIZE) != 0)
        fail("a written card comes back otherwise");
}

int LLVMFuzzerTestOneInput(const uint8_t *data, size_t size);

int LLVMFuzzerTestOneInput(const uint8_t *data, size_t size)
{
    static struct test_case test_case;
    static FILE *nowhere;
    FILE *in;

    if (nowhere == NULL)
        nowhere = fopen("/dev/null", "w");
    if (nowhere == NULL || size == 0 || !is_wanted(data[0]))
        return -1;
    in = fmemopen((void *)(uintptr_t)data, size, "rb");
    if (in == NULL)
        return -1;
    if (get_case(in, &test_case) == 1 && getc(in) == EOF) {
        answer_case(&test_case, nowhere);
        if (test_case.kind == 'R')
            read_back(&test_case);
        if (test_case.kind == 'W')
            write_back(&test_case);
    }
    fclose(in);
    return 0;
}

#endif
