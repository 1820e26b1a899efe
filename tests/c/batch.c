/* Answers many stages and runs from standard input, as the program `batch` does (crates/batch): an item is one byte,
 * `s` or `r`, its length in 4 bytes, low byte first, and its bytes. Each item is also checked, and each of its records
 * asked for by its number: exit status 1 where the calls do not agree. */
#include <lorikvar.h>

#include <stdio.h>
#include <stdlib.h>

#define RECORDS ((size_t)131072)

static uint8_t item[LORIKVAR_MOST_BYTES + 1];
static uint32_t table[RECORDS * LORIKVAR_ROW_WORDS];

static void fail(const char *what, size_t number)
{
    fprintf(stderr, "item %lu: %s\n", (unsigned long)number, what);
    exit(EXIT_FAILURE);
}

static void print_row(size_t k)
{
    const uint32_t *row = table + k * LORIKVAR_ROW_WORDS;
    size_t i;
    printf("%lu", (unsigned long)k);
    for (i = 0; i < LORIKVAR_ROW_WORDS; i++) {
        if (i == LORIKVAR_WORD_PARENT && row[i] == LORIKVAR_NO_PARENT)
            printf(" -");
        else
            printf(" %lu", (unsigned long)row[i]);
    }
    printf("\n");
}

/* The record's part is its start and end. */
static int found(size_t length, size_t count, size_t k)
{
    const uint32_t *row = table + k * LORIKVAR_ROW_WORDS;
    size_t part[LORIKVAR_PART];
    return lorikvar_record_bytes(item, length, table, RECORDS * LORIKVAR_ROW_WORDS, count, k, part)
        && part[0] == row[LORIKVAR_WORD_START] && part[1] == row[LORIKVAR_WORD_END]
        && lorikvar_span_bytes(item, length, part[0], part[1], part);
}

/* The check says what the read says, but that it knows no table. */
static int agree(uint32_t checked, const size_t *c, uint32_t number, const size_t *v)
{
    if (number == LORIKVAR_REFUSAL_TABLE_TOO_SMALL)
        return checked == LORIKVAR_ACCEPTED && c[0] == v[0];
    return checked == number && c[0] == v[0] && c[1] == v[1] && c[2] == v[2] && c[3] == v[3];
}

static void answer(char reading, size_t length, size_t number)
{
    size_t words = RECORDS * LORIKVAR_ROW_WORDS;
    size_t c[LORIKVAR_VALUES], v[LORIKVAR_VALUES], k;
    int is_stage = reading == 's';
    uint32_t checked = is_stage ? lorikvar_check_stage(item, length, c) : lorikvar_check_run(item, length, c);
    uint32_t said = is_stage ? lorikvar_read_stage(item, length, table, words, v)
                             : lorikvar_read_run(item, length, table, words, v);
    if (!agree(checked, c, said, v))
        fail("the check and the read differ", number);
    if (said != LORIKVAR_ACCEPTED) {
        printf("no %lu %lu %lu %lu %lu\n", (unsigned long)said, (unsigned long)v[0], (unsigned long)v[1],
               (unsigned long)v[2], (unsigned long)v[3]);
        return;
    }
    printf("ok %lu\n", (unsigned long)v[0]);
    for (k = 0; k < v[0]; k++) {
        if (!found(length, v[0], k))
            fail("a record is not found", number);
        print_row(k);
    }
}

/* The bytes of an item; of one that is too long, one byte more than is good, and the rest is passed over. */
static size_t take(size_t length, size_t number)
{
    size_t kept = length > LORIKVAR_MOST_BYTES ? (size_t)LORIKVAR_MOST_BYTES + 1 : length;
    size_t k;
    if (fread(item, 1, kept, stdin) != kept)
        fail("cut", number);
    for (k = kept; k < length; k++)
        if (getchar() == EOF)
            fail("cut", number);
    return kept;
}

int main(void)
{
    unsigned char head[5];
    size_t number = 0, got;
    while ((got = fread(head, 1, sizeof head, stdin)) == sizeof head) {
        size_t length = head[1] | (size_t)head[2] << 8 | (size_t)head[3] << 16 | (size_t)head[4] << 24;
        if (head[0] != 's' && head[0] != 'r')
            fail("neither a stage nor a run", number);
        answer((char)head[0], take(length, number), number);
        number++;
    }
    if (got != 0 || number == 0)
        fail("cut, or no item at all", number);
    fprintf(stderr, "%lu items\n", (unsigned long)number);
    return EXIT_SUCCESS;
}
