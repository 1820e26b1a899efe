/* The calls that are measured, each on a run: the UTF-8 pass alone, a check, a read. */
#ifndef LORIKVAR_BENCH_CALLS_H
#define LORIKVAR_BENCH_CALLS_H
#include "equal.h"

enum { PASS, CHECK, READ, CALLS };

static const char *const call_names[CALLS] = {"pass", "check", "read"};

/* A pass is a check of an input that spoil made. */
static inline uint32_t make_call(const Reader *reader, int call, const Input *in, size_t values[4]) {
    return call == READ ? reader->read_run(in->bytes, in->length, first_table, TABLE_WORDS, values)
                        : reader->check_run(in->bytes, in->length, values);
}

/* Puts FF in place of the last character, and gives the length up to there. Refusal 2 comes before the reading: so a
   check tests the whole input as UTF-8, and does nothing more. */
static inline size_t spoil(uint8_t *bytes, size_t length) {
    size_t last = length;
    while (last > 0 && (bytes[--last] & 0xC0) == 0x80) continue;
    bytes[last] = 0xFF;
    return last + 1;
}

/* A spoilt input is refused at its last byte, any other accepted. */
static inline void assert_answer(const Reader *reader, int call, const Input *in) {
    Answer answer, refused = {2, {in->length - 1, in->length - 1, 0, 0}};
    answer.number = make_call(reader, call, in, answer.values);
    if (call == PASS) assert_same(refused, answer, reader, in);
    else if (answer.number) fail("not accepted", in->name);
}
#endif
