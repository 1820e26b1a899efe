#include "check.h"

#include <stdio.h>
#include <stdlib.h>
#include <string.h>

/* No word of a table and no value has these: an input has at most 1,048,576 bytes. */
#define WORD_MARK UINT32_C(0xC0FFEE00)
#define VALUE_MARK ((size_t)0xDEADBEEF)

static const char *subject = "";
static unsigned long passed;
static unsigned long failed;

void about(const char *what)
{
    subject = what;
}

void check_that(int good, const char *condition, const char *file, int line)
{
    if (good) {
        passed++;
        return;
    }
    failed++;
    printf("%s:%d: failed: %s, of: %.60s\n", file, line, condition, subject);
}

int verdict(void)
{
    printf("%lu checks passed, %lu failed\n", passed, failed);
    return failed == 0 && passed > 0 ? EXIT_SUCCESS : EXIT_FAILURE;
}

uint32_t check_by(char reading, const uint8_t *input, size_t length, size_t *values)
{
    return reading == 's' ? lorikvar_check_stage(input, length, values) : lorikvar_check_run(input, length, values);
}

uint32_t read_by(char reading, const uint8_t *input, size_t length, uint32_t *table, size_t words, size_t *values)
{
    return reading == 's' ? lorikvar_read_stage(input, length, table, words, values)
                          : lorikvar_read_run(input, length, table, words, values);
}

const uint8_t *bytes(const char *text)
{
    return (const uint8_t *)text;
}

void mark_words(uint32_t *table, size_t words)
{
    size_t k;
    for (k = 0; k < words; k++)
        table[k] = WORD_MARK + (uint32_t)(k % 251);
}

int marks_stand(const uint32_t *table, size_t from, size_t words)
{
    size_t k;
    for (k = from; k < words; k++)
        if (table[k] != WORD_MARK + (uint32_t)(k % 251))
            return 0;
    return 1;
}

void mark_values(size_t *values, size_t count)
{
    size_t k;
    for (k = 0; k < count; k++)
        values[k] = VALUE_MARK + k;
}

int values_are(const size_t *values, size_t a, size_t b, size_t c, size_t d)
{
    return values[0] == a && values[1] == b && values[2] == c && values[3] == d;
}

char *nested(const char *part, size_t times, const char *middle, const char *end)
{
    size_t room = times * (strlen(part) + strlen(end)) + strlen(middle) + 1;
    char *text = malloc(room);
    char *at = text;
    size_t k;
    if (text == NULL)
        exit(EXIT_FAILURE);
    for (k = 0; k < times; k++)
        at += sprintf(at, "%s", part);
    at += sprintf(at, "%s", middle);
    for (k = 0; k < times; k++)
        at += sprintf(at, "%s", end);
    return text;
}
