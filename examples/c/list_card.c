/* Lists a card file under the terminal edition:
   list_card FILE
   Exit status: 0 accepted, 1 refused, 2 bad usage, 3 it could not be read or written. */
#include <errno.h>
#include <stdio.h>
#include <string.h>

#include "kvk.h"

enum { ACCEPTED, REFUSED, MISUSED, FAILED };

static const uint8_t tags[KVK_SLOT_COUNT] = {
    0x80, 0x81, 0x8F, 0x82, 0x83, 0x90, 0x84, 0x85,
    0x86, 0x87, 0x88, 0x89, 0x8A, 0x8B, 0x8C, 0x8D
};

/* One byte more than a card has, so that a longer file shows. */
struct input {
    uint8_t bytes[KVK_IMAGE_SIZE + 1];
    size_t length;
};

/* 0 if the file was read. A directory can be opened, but not read. */
static int read_file(const char *name, struct input *input)
{
    FILE *file = fopen(name, "rb");
    int failed;

    if (file == NULL)
        return errno;
    errno = 0;
    input->length = fread(input->bytes, 1, sizeof input->bytes, file);
    failed = ferror(file) ? errno : 0;
    fclose(file);
    return failed;
}

static void explain_size(const char *name, size_t length)
{
    if (length > KVK_IMAGE_SIZE)
        fprintf(stderr, "list_card: %s: more than the 256 bytes of a card\n", name);
    else if (length == 0)
        fprintf(stderr, "list_card: %s: the file is empty, a card has 256 bytes\n", name);
    else if (length < KVK_IMAGE_SIZE)
        fprintf(stderr, "list_card: %s: only %u of the 256 bytes of a card\n", name, (unsigned)length);
}

static void print_refusal(uint64_t answer)
{
    printf("REFUSED %u %u %02X %u %u\n", kvk_number(answer), kvk_place(answer), kvk_tag(answer),
           kvk_shortest(answer), kvk_longest(answer));
}

static void print_record(const uint8_t *record)
{
    const uint8_t *slot = record + KVK_SLOTS;
    size_t i;

    puts("ACCEPTED");
    for (i = 0; i < KVK_SLOT_COUNT; i++, slot += KVK_SLOT_SIZE) {
        if (slot[0] == 0)
            continue;
        printf("%02X ", (unsigned)tags[i]);
        fwrite(slot + 1, 1, slot[0], stdout);
        putchar('\n');
    }
}

static int list(const struct input *input)
{
    uint8_t terminal[KVK_TABLE_SIZE];
    uint8_t record[KVK_RECORD_SIZE];
    uint64_t answer;

    kvk_edition(KVK_TERMINAL, terminal, sizeof terminal);
    answer = kvk_read(terminal, sizeof terminal, input->bytes, input->length, record, sizeof record);
    if (kvk_number(answer) != KVK_ACCEPTED) {
        print_refusal(answer);
        return REFUSED;
    }
    print_record(record);
    return ACCEPTED;
}

int main(int count, char **words)
{
    struct input input;
    int failed, status;

    if (count != 2) {
        fputs("usage: list_card FILE\n", stderr);
        return MISUSED;
    }
    failed = read_file(words[1], &input);
    if (failed != 0) {
        fprintf(stderr, "list_card: %s: %s\n", words[1], strerror(failed));
        return FAILED;
    }
    explain_size(words[1], input.length);
    status = list(&input);
    if (fflush(stdout) != 0 || ferror(stdout)) {
        fputs("list_card: cannot write\n", stderr);
        return FAILED;
    }
    return status;
}
