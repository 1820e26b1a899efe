/* What the tests share: a check that counts, and the calls by their reading. */
#ifndef CHECK_H
#define CHECK_H

#include <lorikvar.h>

/* One check: counted, and printed with what it is about where it fails. */
#define CHECK(condition) check_that((condition) ? 1 : 0, #condition, __FILE__, __LINE__)

/* What the checks from here on are about: an input, or a part of a test. */
void about(const char *what);

void check_that(int good, const char *condition, const char *file, int line);

/* Prints how many checks passed; the exit status of the program. */
int verdict(void);

/* The calls, by a letter: 's' for a stage, 'r' for a run. */
uint32_t check_by(char reading, const uint8_t *input, size_t length, size_t *values);
uint32_t read_by(char reading, const uint8_t *input, size_t length, uint32_t *table, size_t words, size_t *values);

/* The bytes of a string. */
const uint8_t *bytes(const char *text);

/* Fills words, or values, with marks that no call writes; whether all of them still stand from one word on. */
void mark_words(uint32_t *table, size_t words);
int marks_stand(const uint32_t *table, size_t from, size_t words);
void mark_values(size_t *values, size_t count);

/* Whether the four values are these. */
int values_are(const size_t *values, size_t a, size_t b, size_t c, size_t d);

/* The text `part` times, then `middle`, then `end` times; in memory that is never freed. */
char *nested(const char *part, size_t times, const char *middle, const char *end);

/* The tests, each in the file of its name. */
void test_accepted(void);
void test_refused(void);
void test_tables(void);
void test_parts(void);
void test_lent(void);
void test_threads(void);
void test_stack(void);

#endif
