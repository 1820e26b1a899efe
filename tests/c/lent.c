/* What a caller lends: null with length 0, one buffer lent twice to be read, nothing touched beyond what is lent. */
#define _DEFAULT_SOURCE
#include "check.h"

#include <stddef.h>
#include <string.h>
#include <sys/mman.h>

/* As large as a page of any machine that runs these tests, so that a whole number of pages is shut. */
#define PAGE ((size_t)65536)

static const char stage[] = "<\xED\x95\x9C \xF0\x9E\xA4\x80='1' {...p}>hi{c(d)[0]}<></>\xC3\xA9</\xED\x95\x9C>";

#define LENGTH (sizeof stage - 1)
#define ROWS 17
#define WORDS (ROWS * LORIKVAR_ROW_WORDS)

/* The header says: a pointer whose length is 0 may be null. */
static void null_and_none(void)
{
    size_t values[LORIKVAR_VALUES], part[LORIKVAR_PART];
    about("null with length 0");
    CHECK(lorikvar_check_stage(NULL, 0, values) == LORIKVAR_REFUSAL_END_OF_INPUT && values_are(values, 0, 0, 0, 0));
    CHECK(lorikvar_check_run(NULL, 0, values) == LORIKVAR_ACCEPTED && values_are(values, 0, 0, 0, 0));
    CHECK(lorikvar_read_stage(NULL, 0, NULL, 0, values) == LORIKVAR_REFUSAL_END_OF_INPUT);
    CHECK(lorikvar_read_run(NULL, 0, NULL, 0, values) == LORIKVAR_ACCEPTED && values_are(values, 0, 0, 0, 0));
    CHECK(lorikvar_read_stage(bytes("<a/>"), 4, NULL, 0, values) == LORIKVAR_REFUSAL_TABLE_TOO_SMALL);
    CHECK(values_are(values, 3, 0, 0, 0));
    CHECK(lorikvar_read_run(bytes("<a/>"), 4, NULL, 0, values) == LORIKVAR_REFUSAL_TABLE_TOO_SMALL);
    CHECK(lorikvar_span_bytes(NULL, 0, 0, 0, part) && part[0] == 0 && part[1] == 0);
    CHECK(!lorikvar_span_bytes(NULL, 0, 0, 1, part) && part[0] == 0 && part[1] == 0);
    CHECK(!lorikvar_record_bytes(NULL, 0, NULL, 0, 0, 0, part) && part[0] == 0 && part[1] == 0);
    CHECK(!lorikvar_record_bytes(NULL, 0, NULL, 0, 1, 0, part) && part[0] == 0 && part[1] == 0);
}

/* Lent twice to be read: the table's own bytes as the input, and one input that starts anywhere within another. */
static void lent_twice(void)
{
    uint32_t table[LORIKVAR_ROW_WORDS] = {1, 4, 20, LORIKVAR_NO_PARENT, 1};
    const uint8_t *same = (const uint8_t *)table;
    size_t values[LORIKVAR_VALUES], part[LORIKVAR_PART], k;
    about("lent twice to be read");
    CHECK(lorikvar_record_bytes(same, sizeof table, table, LORIKVAR_ROW_WORDS, 1, 0, part));
    CHECK(part[0] == 4 && part[1] == 20);
    CHECK(table[0] == 1 && table[1] == 4 && table[2] == 20 && table[4] == 1 && table[5] == 0 && table[6] == 0);
    for (k = 0; k < 8; k++) {
        char room[16] = "";
        memcpy(room + k, "<a/>", 4);
        CHECK(lorikvar_check_stage(bytes(room) + k, 4, values) == LORIKVAR_ACCEPTED && values[0] == 3);
    }
}

/* A page that may be used, with one that may not be before it and another behind it. */
static unsigned char *fenced(void)
{
    unsigned char *room = mmap(NULL, 3 * PAGE, PROT_READ | PROT_WRITE, MAP_PRIVATE | MAP_ANONYMOUS, -1, 0);
    CHECK(room != MAP_FAILED);
    CHECK(mprotect(room, PAGE, PROT_NONE) == 0);
    CHECK(mprotect(room + 2 * PAGE, PAGE, PROT_NONE) == 0);
    return room + PAGE;
}

/* Reads the first n bytes of the stage, with input, table and values each at the front of a page or at its end. */
static void read_fenced(unsigned char *const pages[3], int at_end, size_t n)
{
    size_t end = at_end ? PAGE : 0;
    uint8_t *input = pages[0] + (at_end ? end - n : 0);
    uint32_t *table = (uint32_t *)(void *)(pages[1] + (at_end ? end - WORDS * sizeof(uint32_t) : 0));
    size_t *values = (size_t *)(void *)(pages[2] + (at_end ? end - LORIKVAR_VALUES * sizeof(size_t) : 0));
    uint32_t checked;
    memcpy(input, stage, n);
    mark_words(table, WORDS);
    checked = lorikvar_check_stage(input, n, values);
    CHECK(lorikvar_read_stage(input, n, table, WORDS, values) == checked);
    CHECK((checked == LORIKVAR_ACCEPTED) == (n == LENGTH));
    CHECK(checked == LORIKVAR_ACCEPTED ? values[0] == ROWS : marks_stand(table, 0, WORDS));
    CHECK(lorikvar_check_run(input, n, values) == lorikvar_read_run(input, n, table, WORDS, values));
}

/* A touch beyond what is lent would end the program. Every front part of the stage: it ends at every kind of byte. */
static void nothing_beyond(void)
{
    unsigned char *pages[3];
    size_t n, k;
    about("nothing beyond what is lent");
    for (k = 0; k < 3; k++)
        pages[k] = fenced();
    for (n = 0; n <= LENGTH; n++) {
        read_fenced(pages, 0, n);
        read_fenced(pages, 1, n);
    }
    for (k = 0; k < 3; k++)
        CHECK(munmap(pages[k] - PAGE, 3 * PAGE) == 0);
}

/* An input that may not be written, lent to every call. */
static void input_only_read(void)
{
    unsigned char *page = fenced();
    uint32_t table[WORDS];
    size_t values[LORIKVAR_VALUES], part[LORIKVAR_PART];
    about("an input that may not be written");
    memcpy(page, stage, LENGTH);
    CHECK(mprotect(page, PAGE, PROT_READ) == 0);
    CHECK(lorikvar_check_stage(page, LENGTH, values) == LORIKVAR_ACCEPTED);
    CHECK(lorikvar_check_run(page, LENGTH, values) == LORIKVAR_ACCEPTED);
    CHECK(lorikvar_read_stage(page, LENGTH, table, WORDS, values) == LORIKVAR_ACCEPTED);
    CHECK(lorikvar_read_run(page, LENGTH, table, WORDS, values) == LORIKVAR_ACCEPTED);
    CHECK(lorikvar_span_bytes(page, LENGTH, 0, LENGTH, part));
    CHECK(lorikvar_record_bytes(page, LENGTH, table, WORDS, values[0], 0, part) && part[1] == LENGTH);
    CHECK(memcmp(page, stage, LENGTH) == 0);
    CHECK(munmap(page - PAGE, 3 * PAGE) == 0);
}

/* The header says of three cases that no byte of the input is read: here none may be. */
static void input_not_read(void)
{
    size_t length = (size_t)LORIKVAR_MOST_BYTES + 1;
    uint8_t *input = mmap(NULL, length, PROT_NONE, MAP_PRIVATE | MAP_ANONYMOUS, -1, 0);
    uint32_t table[LORIKVAR_ROW_WORDS] = {1, 4, 20, LORIKVAR_NO_PARENT, 1};
    size_t values[LORIKVAR_VALUES], part[LORIKVAR_PART];
    about("an input that may not be read");
    CHECK(input != MAP_FAILED);
    CHECK(lorikvar_check_stage(input, length, values) == LORIKVAR_REFUSAL_TOO_LONG && values_are(values, 0, 0, 0, 0));
    CHECK(lorikvar_check_run(input, length, values) == LORIKVAR_REFUSAL_TOO_LONG && values_are(values, 0, 0, 0, 0));
    CHECK(lorikvar_read_stage(input, length, table, LORIKVAR_ROW_WORDS, values) == LORIKVAR_REFUSAL_TOO_LONG);
    CHECK(lorikvar_read_run(input, length, table, LORIKVAR_ROW_WORDS, values) == LORIKVAR_REFUSAL_TOO_LONG);
    CHECK(table[1] == 4);
    CHECK(lorikvar_span_bytes(input, length, 7, length, part) && part[0] == 7 && part[1] == length);
    CHECK(lorikvar_record_bytes(input, length, table, LORIKVAR_ROW_WORDS, 1, 0, part));
    CHECK(part[0] == 4 && part[1] == 20);
    CHECK(munmap(input, length) == 0);
}

void test_lent(void)
{
    null_and_none();
    lent_twice();
    nothing_beyond();
    input_only_read();
    input_not_read();
}
