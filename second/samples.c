/* Written from document 01 alone, without a look at the library. */
#include "samples.h"

#include <stdio.h>
#include <string.h>

#include "day.h"

#define COUNT(list) (sizeof(list) / sizeof((list)[0]))

static void make_s(struct draft *draft)
{
    uint8_t record[RECORD_SIZE];

    record_s(record);
    draft_card(draft, record);
}

static void make_full(struct draft *draft)
{
    uint8_t record[RECORD_SIZE];

    record_full(record);
    draft_card(draft, record);
}

static void make_status_1000(struct draft *draft)
{
    uint8_t record[RECORD_SIZE];

    record_s(record);
    set_text(record, ROW_83, "1000");
    draft_card(draft, record);
}

/* L = 93: the filler ends at 253. */
static void make_two_last_bytes(struct draft *draft)
{
    uint8_t record[RECORD_SIZE];

    record_s(record);
    set_text(record, ROW_83, "1000");
    set_text(record, ROW_89, "Am Brunnen 12 a   ");
    record[0] = 0x82;
    record[RECORD_LAST] = 0xFF;
    draft_card(draft, record);
}

static void make_longest(struct draft *draft)
{
    uint8_t record[RECORD_SIZE];

    record_full(record);
    set_text(record, ROW_80, "Die Allgemeine Krankenkasse ");
    set_text(record, ROW_82, "123456789012");
    set_text(record, ROW_84, "Prof. Dr.");
    set_text(record, ROW_85, "Maria-Luise");
    set_text(record, ROW_86, "von de");
    set_text(record, ROW_87, "Mustermann-Beispielshausen A");
    set_text(record, ROW_89, "Lange Strasse am Marktplatz1");
    set_text(record, ROW_8C, "Frankfurt am Main 20");
    draft_card(draft, record);
}

static void make_without_optional(struct draft *draft)
{
    static const uint8_t optional[] = {ROW_8F, ROW_90, ROW_84, ROW_85, ROW_86, ROW_89, ROW_8A, ROW_8D};
    uint8_t record[RECORD_SIZE];
    size_t i;

    record_full(record);
    for (i = 0; i < COUNT(optional); i++)
        set_absent(record, optional[i]);
    draft_card(draft, record);
}

static void make_town_23(struct draft *draft)
{
    uint8_t record[RECORD_SIZE];

    record_full(record);
    set_absent(record, ROW_8A);
    set_text(record, ROW_8B, "1234");
    set_text(record, ROW_8C, "A town of twenty-three.");
    draft_card(draft, record);
}

static void make_country_d(struct draft *draft)
{
    uint8_t record[RECORD_SIZE];

    record_full(record);
    set_text(record, ROW_8A, "D");
    draft_card(draft, record);
}

static void make_fixed_byte(struct draft *draft)
{
    make_full(draft);
    draft->image[22] = 0x80;
}

/* '81' '46' for L = 70. */
static void make_template(struct draft *draft)
{
    uint8_t record[RECORD_SIZE];

    record_s(record);
    draft_start(draft);
    draft->long_form = 1;
    draft_rows(draft, record, 0, OBJECT_COUNT);
    draft_checksum(draft);
    draft_finish(draft, record);
}

static void make_tag(struct draft *draft)
{
    make_full(draft);
    draft->image[draft->tag_at[ROW_83]] = second_tags[ROW_82];
    draft_mend(draft);
}

static void make_missing(struct draft *draft)
{
    uint8_t record[RECORD_SIZE];

    record_full(record);
    set_absent(record, ROW_87);
    draft_card(draft, record);
}

static void make_length(struct draft *draft)
{
    uint8_t record[RECORD_SIZE];

    record_full(record);
    set_text(record, ROW_83, "10");
    draft_card(draft, record);
}

static void make_past_the_template(struct draft *draft)
{
    uint8_t record[RECORD_SIZE];

    record_full(record);
    draft_start(draft);
    draft_rows(draft, record, 0, OBJECT_COUNT);
    draft->body_length -= 2;
    draft_finish(draft, record);
}

static void make_character(struct draft *draft)
{
    make_full(draft);
    draft->image[draft->tag_at[ROW_87] + 3] = 0x5E;
    draft_mend(draft);
}

static void make_birth(struct draft *draft)
{
    uint8_t record[RECORD_SIZE];

    record_full(record);
    set_text(record, ROW_88, "05001950");
    draft_card(draft, record);
}

static void make_sum(struct draft *draft)
{
    uint8_t record[RECORD_SIZE];

    record_full(record);
    set_text(record, ROW_85, "Twenty-one letters...");
    draft_card(draft, record);
}

static void make_going_on(struct draft *draft)
{
    uint8_t record[RECORD_SIZE];

    record_full(record);
    draft_start(draft);
    draft_rows(draft, record, 0, OBJECT_COUNT);
    draft_checksum(draft);
    draft_byte(draft, 0x20);
    draft_finish(draft, record);
}

/* The sum from the first object on, without '60' and L. */
static void make_checksum(struct draft *draft)
{
    make_s(draft);
    draft->image[draft->checksum_at] ^= (uint8_t)(0x60 ^ 70);
}

static void make_filler_tag(struct draft *draft)
{
    make_full(draft);
    draft->image[draft->end] = 0x00;
}

/* '81' '7F' at L = 93, where '7F' alone is due. */
static void make_filler_length(struct draft *draft)
{
    make_two_last_bytes(draft);
    draft->image[draft->end + 1] = 0x81;
    draft->image[draft->end + 2] = 0x7F;
}

static void make_filler_value(struct draft *draft)
{
    make_full(draft);
    draft->image[240] = 0x00;
}

static void make_last_byte(struct draft *draft)
{
    make_full(draft);
    draft->image[255] = 0xFF;
}

static const struct {
    const char *name;
    void (*make)(struct draft *draft);
} samples[] = {
    {"s", make_s},
    {"both-status-1000", make_status_1000},
    {"both-all-objects", make_full},
    {"both-two-last-bytes", make_two_last_bytes},
    {"both-longest", make_longest},
    {"terminal-without-optional", make_without_optional},
    {"terminal-town-of-23", make_town_23},
    {"terminal-country-d", make_country_d},
    {"refused-03-fixed-byte", make_fixed_byte},
    {"refused-04-template-length", make_template},
    {"refused-05-tag-again", make_tag},
    {"refused-06-family-name-missing", make_missing},
    {"refused-07-length", make_length},
    {"refused-08-past-the-template", make_past_the_template},
    {"refused-09-character", make_character},
    {"refused-10-birth", make_birth},
    {"refused-11-sum-of-names", make_sum},
    {"refused-12-behind-the-checksum", make_going_on},
    {"refused-13-checksum", make_checksum},
    {"refused-14-filler-tag", make_filler_tag},
    {"refused-15-filler-length", make_filler_length},
    {"refused-16-filler-value", make_filler_value},
    {"refused-17-last-byte", make_last_byte}
};

size_t sample_count(void)
{
    return COUNT(samples);
}

void make_sample(size_t which, struct draft *draft)
{
    samples[which].make(draft);
}

static int write_file(const char *folder, const char *name, const uint8_t *bytes, size_t length)
{
    char path[1024];
    int written = snprintf(path, sizeof path, "%s/%s", folder, name);
    FILE *out = written < 0 || (size_t)written >= sizeof path ? NULL : fopen(path, "wb");
    int whole;

    if (out == NULL)
        return 0;
    whole = fwrite(bytes, 1, length, out) == length;
    return fclose(out) == 0 && whole;
}

/* Three cards of the samples, two of them with the same insured number. */
static int write_day(const char *folder)
{
    static void (*const makers[])(struct draft *draft) = {make_full, make_status_1000, make_country_d};
    uint8_t images[COUNT(makers) * IMAGE_SIZE], file[1000];
    struct draft draft;
    uint64_t answer;
    size_t i;

    for (i = 0; i < COUNT(makers); i++) {
        makers[i](&draft);
        memcpy(images + i * IMAGE_SIZE, draft.image, IMAGE_SIZE);
    }
    answer = second_day_build(images, sizeof images, file, sizeof file);
    return write_file(folder, "three-visits.day", file, (size_t)(answer >> 40));
}

int write_samples(const char *folder)
{
    struct draft draft;
    char name[64];
    size_t i;

    for (i = 0; i < COUNT(samples); i++) {
        snprintf(name, sizeof name, "%s.kvk", samples[i].name);
        samples[i].make(&draft);
        if (!write_file(folder, name, draft.image, IMAGE_SIZE))
            return 1;
    }
    return write_day(folder) ? 0 : 1;
}
