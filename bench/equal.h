/* Asserts that the readers agree: the same number, values and table, and no word changed behind the last record. */
#ifndef LORIKVAR_BENCH_EQUAL_H
#define LORIKVAR_BENCH_EQUAL_H
#include "readers.h"

static const uint32_t PAINT = 0xA5C3E187u;

enum { MARGIN = 64 };

static uint32_t first_table[TABLE_WORDS + ROW + MARGIN], other_table[TABLE_WORDS + ROW + MARGIN];

typedef struct {
    size_t number, values[4];
} Answer;

typedef struct {
    const char *name;
    const uint8_t *bytes;
    size_t length;
    int run; /* a run; else a stage */
} Input;

static inline Answer check_answer(const Reader *reader, const Input *in) {
    Answer answer;
    Check *check = in->run ? reader->check_run : reader->check_stage;
    answer.number = check(in->bytes, in->length, answer.values);
    return answer;
}

/* Reads into a table that is painted, with a margin behind it. */
static inline Answer read_answer(const Reader *reader, const Input *in, uint32_t *table, size_t words) {
    Answer answer;
    Read *read = in->run ? reader->read_run : reader->read_stage;
    for (size_t i = 0; i < words + MARGIN; i++) table[i] = PAINT;
    answer.number = read(in->bytes, in->length, table, words, answer.values);
    return answer;
}

/* Behind the records all is as it was; a refusal has none. */
static inline void assert_untouched(const Reader *reader, const Input *in, Answer answer, const uint32_t *table, size_t words) {
    size_t count = answer.number ? 0 : answer.values[0];
    if (ROW * count > words) fail(reader->name, in->name);
    for (size_t i = ROW * count; i < words + MARGIN; i++)
        if (table[i] != PAINT) fail("a word behind the records was changed", in->name);
}

static inline void assert_same(Answer x, Answer y, const Reader *reader, const Input *in) {
    if (memcmp(&x, &y, sizeof x) == 0) return;
    fprintf(stderr, "%s differs: %zu %zu %zu, ", reader->name, x.number, x.values[0], x.values[1]);
    fprintf(stderr, "%zu %zu %zu\n", y.number, y.values[0], y.values[1]);
    fail("answers differ", in->name);
}

/* An older port may refuse what is new. */
static inline int is_refusal_of_new(const Reader *reader, Answer first, Answer answer) {
    return strcmp(reader->name, "before") == 0 && first.number == 0 && answer.number != 0;
}

/* Holds every reader against the first, with a table of so many words. Gives the first's answer to the read. */
static inline Answer assert_equal(const Input *in, size_t words) {
    Answer checked = check_answer(&readers[0], in);
    Answer first = read_answer(&readers[0], in, first_table, words);
    if (first.number != 15) assert_same(checked, first, &readers[0], in);
    assert_untouched(&readers[0], in, first, first_table, words);
    for (int i = 1; i < READERS; i++) {
        Answer answer = check_answer(&readers[i], in);
        if (is_refusal_of_new(&readers[i], checked, answer)) continue;
        assert_same(checked, answer, &readers[i], in);
        assert_same(first, read_answer(&readers[i], in, other_table, words), &readers[i], in);
        if (memcmp(first_table, other_table, sizeof(uint32_t) * (words + MARGIN))) fail("tables differ", in->name);
    }
    return first;
}
#endif
