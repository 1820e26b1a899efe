/* The library with one fault, by the number WRONG: the tests must find each. The functions of the archive go by the
 * names right_.. here. What is wrong stands beside each number. */
#include <lorikvar.h>

#include <string.h>

#define SHORT 16
#define ASCII 128

uint32_t right_check_stage(const uint8_t *input, size_t length, size_t values[LORIKVAR_VALUES]);
uint32_t right_check_run(const uint8_t *input, size_t length, size_t values[LORIKVAR_VALUES]);
uint32_t right_read_stage(const uint8_t *input, size_t length, uint32_t *table, size_t words,
                          size_t values[LORIKVAR_VALUES]);
uint32_t right_read_run(const uint8_t *input, size_t length, uint32_t *table, size_t words,
                        size_t values[LORIKVAR_VALUES]);
bool right_span_bytes(const uint8_t *input, size_t length, size_t start, size_t end, size_t part[LORIKVAR_PART]);
bool right_record_bytes(const uint8_t *input, size_t length, const uint32_t *table, size_t words, size_t count,
                        size_t number, size_t part[LORIKVAR_PART]);

/* One byte of the input, looked at without need. */
static void look(const uint8_t *input, size_t at)
{
    (void)*(const volatile uint8_t *)(input + at);
}

/* A fault in what a check or a read says. */
static uint32_t said(uint32_t number, const uint8_t *input, size_t length, size_t *values)
{
    if (WRONG == 1 && number == 7) { /* the places of 7 turned */
        size_t start = values[0], end = values[1];
        values[0] = values[2], values[1] = values[3], values[2] = start, values[3] = end;
    }
    if (WRONG == 2 && number == 4) /* the end of input, one byte early */
        values[0]--, values[1]--;
    if (WRONG == 3 && number == 0) /* a count that is invented */
        values[0]++;
    if (WRONG == 4 && number == 12) /* 13 for 12 */
        return 13;
    if (WRONG == 5 && number == 16) /* the end of a byte's place not written */
        values[1] = values[0];
    if (WRONG == 6 && (number == 17 || number == 18)) /* an open comment and an open string exchanged */
        return 17 + 18 - number;
    if (WRONG == 7 && number == 3) /* the end of a broken string's piece lost */
        values[1] = values[0];
    if (WRONG == 8 && number == 3 && values[0] < length && input[values[0]] >= ASCII) /* 3 at a second byte */
        values[0]++, values[1]++;
    return number;
}

/* Each of these bytes in the room is read as others, of the same length. */
static void read_as(uint8_t *room, size_t length, const char *these, const char *others)
{
    size_t n = strlen(these), k;
    for (k = 0; k + n <= length; k++)
        if (memcmp(room + k, these, n) == 0)
            memcpy(room + k, others, n);
}

/* A fault in what a character of a short stage is: other bytes are read than the input, further on in it or in the
 * room. */
static const uint8_t *misread(const uint8_t *input, size_t *length, uint8_t room[SHORT])
{
    if (*length < 3 || *length > SHORT)
        return input;
    if (WRONG == 9 && memcmp(input, "\xEF\xBB\xBF", 3) == 0) { /* a byte order mark is taken off */
        *length -= 3;
        return input + 3;
    }
    memcpy(room, input, *length);
    if (WRONG == 10) /* U+200B is a blank */
        read_as(room, *length, "\xE2\x80\x8B", "   ");
    if (WRONG == 11) /* U+200D is no character of a name: U+200B is none */
        read_as(room, *length, "\xE2\x80\x8D", "\xE2\x80\x8B");
    if (WRONG == 12) /* a later character, U+0301, begins a name */
        read_as(room, *length, "<\xCC\x81", "<\xC3\xA9");
    if (WRONG == 13) /* a name in braces begins beyond ASCII */
        read_as(room, *length, "{\xC3\xA9", "{ee");
    if (WRONG == 14) /* names are normalised: U+F900 is U+8C48 */
        read_as(room, *length, "\xEF\xA4\x80", "\xE8\xB1\x88");
    if (WRONG == 15) /* an older Unicode, without U+33479: no more a letter than U+1F600 */
        read_as(room, *length, "\xF0\xB3\x91\xB9", "\xF0\x9F\x98\x80");
    return room;
}

uint32_t lorikvar_check_stage(const uint8_t *input, size_t length, size_t values[LORIKVAR_VALUES])
{
    uint8_t room[SHORT];
    if (WRONG == 16) /* a run's check for a stage's */
        return right_check_run(input, length, values);
    if (WRONG == 17) /* a byte behind the input is looked at */
        look(input, length);
    if (WRONG == 18 && length == LORIKVAR_MOST_BYTES) /* the longest input is too long */
        return right_check_stage(input, length + 1, values);
    input = misread(input, &length, room);
    return said(right_check_stage(input, length, values), input, length, values);
}

uint32_t lorikvar_check_run(const uint8_t *input, size_t length, size_t values[LORIKVAR_VALUES])
{
    if (WRONG == 19 && length == 0) /* the empty run is refused */
        return right_check_stage(input, length, values);
    return said(right_check_run(input, length, values), input, length, values);
}

/* A word of a record. */
static uint32_t *word(uint32_t *table, size_t record, enum lorikvar_word place)
{
    return table + record * LORIKVAR_ROW_WORDS + place;
}

/* Names of one kind that begin beyond ASCII are called another. */
static void call_names(const uint8_t *input, uint32_t *table, size_t count, uint32_t kind, uint32_t other)
{
    size_t k;
    for (k = 0; k < count; k++)
        if (*word(table, k, LORIKVAR_WORD_KIND) == kind && input[*word(table, k, LORIKVAR_WORD_START)] >= ASCII)
            *word(table, k, LORIKVAR_WORD_KIND) = other;
}

/* A fault in what a read does with its table and its stack. */
static uint32_t wrote(uint32_t number, const uint8_t *input, uint32_t *table, size_t words, const size_t *values)
{
    size_t k;
    if (WRONG == 20 && number != 0 && words > 0) /* a refusal writes a word */
        table[0] = 1;
    if (WRONG == 21 && number == 0 && words > LORIKVAR_ROW_WORDS * values[0]) /* a word beyond the last record */
        *word(table, values[0], LORIKVAR_WORD_KIND) = 0;
    if (WRONG == 22 && number == 0 && values[0] > 2) /* the last record's parent is wrong */
        *word(table, values[0] - 1, LORIKVAR_WORD_PARENT) = 0;
    if (WRONG == 23 && number == 0 && values[0] > 0) /* a missing parent is 0 */
        *word(table, 0, LORIKVAR_WORD_PARENT) = 0;
    for (k = 0; WRONG == 24 && number == 0 && k < values[0]; k++) /* a record is its own ancestor */
        ++*word(table, k, LORIKVAR_WORD_DEPTH);
    if (WRONG == 25 && number == 0 && values[0] > 2) /* the last record's depth is that of an outermost one */
        *word(table, values[0] - 1, LORIKVAR_WORD_DEPTH) = 0;
    if (WRONG == 26 && number == 0) /* a reference beyond ASCII is an identifier */
        call_names(input, table, values[0], LORIKVAR_KIND_REFERENCE, LORIKVAR_KIND_IDENTIFIER);
    if (WRONG == 27 && number == 0) /* a name with a dash that begins beyond ASCII is a reference */
        call_names(input, table, values[0], LORIKVAR_KIND_IDENTIFIER, LORIKVAR_KIND_REFERENCE);
    return number;
}

uint32_t lorikvar_read_stage(const uint8_t *input, size_t length, uint32_t *table, size_t words,
                             size_t values[LORIKVAR_VALUES])
{
    uint8_t room[SHORT];
    uint32_t number;
    if (WRONG == 28) /* records rounded up */
        words = (words + LORIKVAR_ROW_WORDS - 1) / LORIKVAR_ROW_WORDS * LORIKVAR_ROW_WORDS;
    if (WRONG == 29) /* the table is looked at before its length is */
        look((const uint8_t *)table, 0);
    input = misread(input, &length, room);
    number = said(right_read_stage(input, length, table, words, values), input, length, values);
    return wrote(number, input, table, words, values);
}

uint32_t lorikvar_read_run(const uint8_t *input, size_t length, uint32_t *table, size_t words,
                           size_t values[LORIKVAR_VALUES])
{
    volatile uint8_t more[WRONG == 30 ? 100000 : 1]; /* more stack than is said */
    uint32_t number;
    more[0] = 0;
    number = said(right_read_run(input, length, table, words, values), input, length, values);
    return wrote(number, input, table, words, values) + more[0];
}

bool lorikvar_span_bytes(const uint8_t *input, size_t length, size_t start, size_t end, size_t part[LORIKVAR_PART])
{
    if (WRONG == 31) /* an end one past the input is in range */
        return right_span_bytes(input, length + 1, start, end, part);
    if (WRONG == 32 && start > end) /* nothing is said of a span that ends before it starts */
        return false;
    return right_span_bytes(input, length, start, end, part);
}

bool lorikvar_record_bytes(const uint8_t *input, size_t length, const uint32_t *table, size_t words, size_t count,
                           size_t number, size_t part[LORIKVAR_PART])
{
    if (WRONG == 33) /* the count is passed over */
        count = SIZE_MAX;
    if (WRONG == 34) /* a record's span is not held against the input */
        length = SIZE_MAX;
    if (WRONG == 35) /* the record before */
        number = number > 0 ? number - 1 : 0;
    return right_record_bytes(input, length, table, words, count, number, part);
}
