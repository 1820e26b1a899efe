/* The bytes of a span and of a record, in range and out of it. */
#include "check.h"

#include <stdint.h>

static const char stage[] = "<v>hi</v>";

#define LENGTH (sizeof stage - 1)
#define WORDS (7 * LORIKVAR_ROW_WORDS)

static int part_is(const size_t *part, size_t start, size_t end)
{
    return part[0] == start && part[1] == end;
}

/* Every span from 0, 0 to one past the input, both ways round, and the largest numbers. */
static void spans(void)
{
    size_t start, end, part[LORIKVAR_PART];
    about("spans");
    for (start = 0; start <= LENGTH + 1; start++)
        for (end = 0; end <= LENGTH + 1; end++) {
            int good = start <= end && end <= LENGTH;
            mark_values(part, LORIKVAR_PART);
            CHECK(lorikvar_span_bytes(bytes(stage), LENGTH, start, end, part) == (good ? true : false));
            CHECK(good ? part_is(part, start, end) : part_is(part, 0, 0));
        }
    CHECK(!lorikvar_span_bytes(bytes(stage), LENGTH, 0, SIZE_MAX, part) && part_is(part, 0, 0));
    CHECK(!lorikvar_span_bytes(bytes(stage), LENGTH, SIZE_MAX, SIZE_MAX, part) && part_is(part, 0, 0));
    CHECK(!lorikvar_span_bytes(bytes(stage), LENGTH, SIZE_MAX, 0, part) && part_is(part, 0, 0));
}

static int bytes_of(const uint32_t *table, size_t words, size_t count, size_t number, size_t *part)
{
    mark_values(part, LORIKVAR_PART);
    return lorikvar_record_bytes(bytes(stage), LENGTH, table, words, count, number, part);
}

/* Each record that was read is found, with its start and end; from the count on none is. */
static void records(void)
{
    uint32_t table[WORDS];
    size_t values[LORIKVAR_VALUES], part[LORIKVAR_PART], k;
    about("records");
    mark_words(table, WORDS);
    CHECK(lorikvar_read_stage(bytes(stage), LENGTH, table, WORDS, values) == LORIKVAR_ACCEPTED);
    for (k = 0; k < values[0]; k++) {
        const uint32_t *row = table + k * LORIKVAR_ROW_WORDS;
        CHECK(bytes_of(table, WORDS, values[0], k, part));
        CHECK(part_is(part, row[LORIKVAR_WORD_START], row[LORIKVAR_WORD_END]));
    }
    CHECK(bytes_of(table, WORDS, 6, 3, part) && stage[part[0]] == 'h' && part[1] == part[0] + 2);
    CHECK(!bytes_of(table, WORDS, 6, 6, part) && part_is(part, 0, 0));
    CHECK(!bytes_of(table, WORDS, 0, 0, part) && part_is(part, 0, 0));
    CHECK(!bytes_of(table, WORDS, SIZE_MAX, SIZE_MAX - 1, part) && part_is(part, 0, 0));
    CHECK(!bytes_of(table, WORDS, SIZE_MAX, SIZE_MAX / LORIKVAR_ROW_WORDS + 1, part) && part_is(part, 0, 0));
}

/* A table of w words holds w / LORIKVAR_ROW_WORDS records, whatever the count says. */
static void past_the_table(void)
{
    uint32_t table[WORDS];
    size_t values[LORIKVAR_VALUES], part[LORIKVAR_PART], w;
    about("records past the table");
    CHECK(lorikvar_read_stage(bytes(stage), LENGTH, table, WORDS, values) == LORIKVAR_ACCEPTED);
    for (w = 0; w < 4 * LORIKVAR_ROW_WORDS; w++) {
        int good = 3 <= w / LORIKVAR_ROW_WORDS;
        CHECK(bytes_of(table, w, 6, 2, part) == good);
        CHECK(good ? part_is(part, 1, 2) : part_is(part, 0, 0));
    }
}

/* Words that no read wrote: a span that is not in the input is out of range, and any other is taken as it stands. */
static void any_words(void)
{
    uint32_t backwards[LORIKVAR_ROW_WORDS] = {1, 5, 4};
    uint32_t outside[LORIKVAR_ROW_WORDS] = {1, 0, LENGTH + 1};
    uint32_t largest[LORIKVAR_ROW_WORDS] = {1, UINT32_MAX, UINT32_MAX};
    uint32_t unknown[LORIKVAR_ROW_WORDS] = {77, 2, LENGTH, 88, 88, 88, 88};
    size_t part[LORIKVAR_PART];
    about("any words");
    CHECK(!bytes_of(backwards, LORIKVAR_ROW_WORDS, 1, 0, part) && part_is(part, 0, 0));
    CHECK(!bytes_of(outside, LORIKVAR_ROW_WORDS, 1, 0, part) && part_is(part, 0, 0));
    CHECK(!bytes_of(largest, LORIKVAR_ROW_WORDS, 1, 0, part) && part_is(part, 0, 0));
    CHECK(bytes_of(unknown, LORIKVAR_ROW_WORDS, 1, 0, part) && part_is(part, 2, LENGTH));
}

void test_parts(void)
{
    spans();
    records();
    past_the_table();
    any_words();
}
