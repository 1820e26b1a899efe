/*
 * Lorikvar: a JSX reader for x86-64 Linux, whose every function is proved to meet its contract.
 *
 * Four calls read an input: a check counts its records, a read also writes them into a table. Two readings: a STAGE
 * is blanks, one element or fragment, blanks and the end of input; a RUN is zero or more children up to the end of
 * input. Two more calls say where the bytes of a record or of a span stand in the input. "Document 01" below is the
 * paper that defines the language; crates/jsx/specs states it.
 *
 * BLANKS are comments and ECMA-262's white space and line terminators: tab, LF, VT, FF, CR, space, U+00A0, U+1680,
 * U+2000 to U+200A, U+2028, U+2029, U+202F, U+205F, U+3000, U+FEFF. A byte order mark in front of a stage is one of
 * them: it is not taken off, and offsets count its bytes. In a run it is text.
 *
 * NAMES of elements and attributes may be in any script: a part begins with a character of Unicode's ID_Start, `$` or
 * `_`, then come those of ID_Continue, `$`, U+200C, U+200D and `-`; of version 17.0. Two names are equal if their bytes
 * are: none is normalised. Names in braces are ASCII.
 *
 * Any bytes get an answer. A refusal is the whole answer: it writes no word of the table, and there is no half-read
 * tree.
 *
 * AN EXAMPLE: a stage, and the texts in it.
 *
 *     const uint8_t *input = (const uint8_t *)"<v>hi</v>";
 *     uint32_t table[100 * LORIKVAR_ROW_WORDS];
 *     size_t values[LORIKVAR_VALUES], part[LORIKVAR_PART], k;
 *     uint32_t number = lorikvar_read_stage(input, 9, table, 100 * LORIKVAR_ROW_WORDS, values);
 *     if (number != LORIKVAR_ACCEPTED) {
 *         printf("refusal %u at %zu, %zu\n", (unsigned)number, values[0], values[1]);
 *         return;
 *     }
 *     for (k = 0; k < values[0]; k++)
 *         if (table[k * LORIKVAR_ROW_WORDS + LORIKVAR_WORD_KIND] == LORIKVAR_KIND_TEXT &&
 *             lorikvar_record_bytes(input, 9, table, 100 * LORIKVAR_ROW_WORDS, values[0], k, part))
 *             printf("%.*s\n", (int)(part[1] - part[0]), (const char *)input + part[0]);
 *
 * It prints `hi`. Where the size of the table is not known, check first: the count times LORIKVAR_ROW_WORDS is the
 * words that a read needs. An input of n bytes has at most n records (proved: crates/jsx/proofs/Fits.antt).
 *
 * WHAT IS PROMISED. What each call returns and writes is determined for every input and every table; the statements
 * stand in crates/abi/specs/Said.antt, which cites the definitions in crates/jsx/specs/Table.antt, and are named at
 * each call. They are proved. Not proved but tested: that this header says the same as the archive (tests/c).
 *
 * WHAT IS ASKED of the caller, by every call:
 *
 * - A pointer is valid for the length beside it, in elements: `length` bytes, `words` words of 32 bits; `values`
 *   has 4 elements and `part` has 2. Tables, `values` and `part` are aligned as their types are; an input has no
 *   alignment.
 * - A pointer whose length is 0 may be null, or point anywhere: nothing is read or written through it (tested; the
 *   statements do not speak of addresses). `values` and `part` are never null.
 * - What is lent to be written (`table` in a read, `values`, `part`) overlaps nothing else that the same call is
 *   lent, and nobody else reads or writes it until the call returns. To lend one buffer twice so is the caller's
 *   fault, and no promise holds then.
 * - What is lent to be read (`input`; `table` in lorikvar_record_bytes) may overlap other such parts, and may be
 *   lent to several calls at once. Nobody writes it until the call returns: of a mapped file, no other process.
 *
 * TABLES. A record is LORIKVAR_ROW_WORDS words. A table of w words holds w / LORIKVAR_ROW_WORDS records, rounded
 * down: any w is good, and the words beyond the last record stay as they were.
 *
 * WHAT IS USED. No call allocates, keeps a pointer, has state of its own, or calls anything outside the archive; so
 * several threads may call at once. The stack is bounded, since depth is: less than 128 KiB at depth 64 (measured
 * by tests/c, which fails above it; not proved).
 */
#ifndef LORIKVAR_H
#define LORIKVAR_H

#include <stddef.h>
#include <stdint.h>
#ifndef __cplusplus
#include <stdbool.h>
#endif

#ifdef __cplusplus
extern "C" {
#endif

/* The most bytes of an input; a longer one is LORIKVAR_REFUSAL_TOO_LONG, and no byte of it is read. */
#define LORIKVAR_MOST_BYTES 1048576

/* The most levels of depth. */
#define LORIKVAR_MOST_DEPTH 64

/* The words of a record, and the parent of a record that stands in none. */
#define LORIKVAR_ROW_WORDS 7
#define LORIKVAR_NO_PARENT 0xFFFFFFFFu

/* The elements of `values` and of `part`. */
#define LORIKVAR_VALUES 4
#define LORIKVAR_PART 2

/*
 * What a check or a read returns: accepted, or a refusal by its number; there is no other. `values` then holds two
 * places, start and end of each, as said here. A single offset p is p, p; a place that is not said is 0, 0. Tests
 * run in this order: 1; 2; the reading, left to right, where the first trouble wins; 15. Crate jsx,
 * specs/Refusal.antt.
 */
enum lorikvar_refusal {
    /* Accepted: values[0] is the count of records, the others are 0. */
    LORIKVAR_ACCEPTED = 0,
    /* The input has more than LORIKVAR_MOST_BYTES bytes: 0, 0. */
    LORIKVAR_REFUSAL_TOO_LONG = 1,
    /* Not well-formed UTF-8: the offset where no good sequence begins. */
    LORIKVAR_REFUSAL_NOT_UTF8 = 2,
    /* No allowed token begins here, or a bad word, number or string: its start; inside a string, the bad byte; of a
     * string in braces that LF or CR breaks, the piece: the offset of its quote, and that of the LF or CR. */
    LORIKVAR_REFUSAL_UNEXPECTED = 3,
    /* The input ends where something is still needed: its length. */
    LORIKVAR_REFUSAL_END_OF_INPUT = 4,
    /* A quoted attribute string is never closed: its quote. */
    LORIKVAR_REFUSAL_QUOTED_NEVER_CLOSED = 5,
    /* A > or } in the text of a child: its offset. */
    LORIKVAR_REFUSAL_STRAY_IN_TEXT = 6,
    /* The closing name differs: the opening name; the closing name. */
    LORIKVAR_REFUSAL_NAMES_DIFFER = 7,
    /* A fragment is closed by a name: the opening fragment; the closing name. */
    LORIKVAR_REFUSAL_FRAGMENT_CLOSED_BY_NAME = 8,
    /* An element is closed by </>: the opening name; the closing fragment. */
    LORIKVAR_REFUSAL_ELEMENT_CLOSED_BY_FRAGMENT = 9,
    /* A dash after a dot in a name: that part. */
    LORIKVAR_REFUSAL_DASH_AFTER_DOT = 10,
    /* An attribute ={} with nothing or blanks inside: the braces. */
    LORIKVAR_REFUSAL_EMPTY_VALUE = 11,
    /* After an element or fragment that is no child, a < that no < or = follows: that byte, p and p + 1. */
    LORIKVAR_REFUSAL_ADJACENT = 12,
    /* Anything else after a stage: its start. */
    LORIKVAR_REFUSAL_AFTER_STAGE = 13,
    /* More than LORIKVAR_MOST_DEPTH levels: the first byte of the one too many. */
    LORIKVAR_REFUSAL_TOO_DEEP = 14,
    /* Accepted, but more records than the table holds: values[0] is the count that is needed. From reads only. */
    LORIKVAR_REFUSAL_TABLE_TOO_SMALL = 15,
    /* A comma after the expression of {expression}: that byte, p and p + 1. */
    LORIKVAR_REFUSAL_COMMA_IN_BRACES = 16,
    /* A comment that begins with slash and star is never closed: its first byte. */
    LORIKVAR_REFUSAL_COMMENT_NEVER_CLOSED = 17,
    /* A string in braces is never closed: its quote. */
    LORIKVAR_REFUSAL_STRING_NEVER_CLOSED = 18
};

/*
 * The kinds of records, with what each holds, in order. Crate jsx, specs/Kind.antt. The word `extra` is 1 for a
 * paired element, and for an identifier, reference or other part with a dash in it; else 0.
 */
enum lorikvar_kind {
    /* Its opening tag, its children, and its closing tag where paired. */
    LORIKVAR_KIND_ELEMENT = 1,
    /* Its opening tag, its children, its closing tag. */
    LORIKVAR_KIND_FRAGMENT = 2,
    /* A name of one part: v. */
    LORIKVAR_KIND_IDENTIFIER = 3,
    /* A name of one part with no dash that begins with A-Z, _, $ or a character beyond ASCII; the first part of a
     * member name. */
    LORIKVAR_KIND_REFERENCE = 4,
    /* The name `this`, exactly, by itself or as the first part of a member name. */
    LORIKVAR_KIND_THIS = 5,
    /* A name part:part. Two other parts. */
    LORIKVAR_KIND_NAMESPACED = 6,
    /* A name part.part. A `this` or a reference, then other parts. */
    LORIKVAR_KIND_MEMBER = 7,
    /* Its name (an other part or namespaced), then its value if given: quoted, container, element or fragment. */
    LORIKVAR_KIND_ATTRIBUTE = 8,
    /* {...expression} among attributes. An expression. */
    LORIKVAR_KIND_SPREAD_ATTRIBUTE = 9,
    /* A quoted string as a value, with its quotes. */
    LORIKVAR_KIND_QUOTED = 10,
    /* {expression} or {} as a child, {expression} as a value. An expression or an empty expression. */
    LORIKVAR_KIND_CONTAINER = 11,
    /* All between the braces of {}. */
    LORIKVAR_KIND_EMPTY_EXPRESSION = 12,
    /* {...expression} as a child. An expression. */
    LORIKVAR_KIND_SPREAD_CHILD = 13,
    /* Text as a child. */
    LORIKVAR_KIND_TEXT = 14,
    /* An expression, from its first to its last token. The outermost elements and fragments in it. */
    LORIKVAR_KIND_EXPRESSION = 15,
    /* A part of a name: of an attribute's, a namespaced one, or a member name's behind a dot. */
    LORIKVAR_KIND_OTHER_PART = 16,
    /* </v> or </>. Its name, if any. */
    LORIKVAR_KIND_CLOSING_TAG = 17,
    /* <v b>, <v/> or <>. Its name, if any, then its attributes. */
    LORIKVAR_KIND_OPENING_TAG = 18
};

/*
 * The words of a record, in order. Records stand in preorder, numbered from 0; record k begins at the word
 * k * LORIKVAR_ROW_WORDS. The first record inside k is k + 1, unless k's `after` is k + 1; the next one beside a
 * record is that record's `after`, as long as that is below the `after` of the record around them (outermost: below
 * the count).
 */
enum lorikvar_word {
    /* One of enum lorikvar_kind. */
    LORIKVAR_WORD_KIND = 0,
    /* The offsets of its first byte and behind its last one. */
    LORIKVAR_WORD_START = 1,
    LORIKVAR_WORD_END = 2,
    /* The number of the record that it stands in, or LORIKVAR_NO_PARENT. */
    LORIKVAR_WORD_PARENT = 3,
    /* The number of the first record past all that it holds. */
    LORIKVAR_WORD_AFTER = 4,
    /* 0 or 1, as said at enum lorikvar_kind. */
    LORIKVAR_WORD_EXTRA = 5,
    /* The number of its ancestors: 0 for an outermost record, else its parent's plus 1. Records are counted, tags,
     * attributes, containers and expressions among them; so it is not the depth that LORIKVAR_MOST_DEPTH limits. */
    LORIKVAR_WORD_DEPTH = 6
};

/*
 * Checks a stage. Returns 0 with the count of its records in values[0], or a refusal's number with its places: one of
 * enum lorikvar_refusal, never 15. All four values are always written. Promise: SaysOfCheck stage_rule.
 */
uint32_t lorikvar_check_stage(const uint8_t *input, size_t length, size_t values[LORIKVAR_VALUES]);

/* Checks a run, likewise; never 13. The empty run is good and has no record. Promise: SaysOfCheck run_rule. */
uint32_t lorikvar_check_run(const uint8_t *input, size_t length, size_t values[LORIKVAR_VALUES]);

/*
 * Reads a stage into a table. Returns what the check returns, or 15 where that accepts and the table holds fewer
 * records. Where it returns 0, the records stand at the table's front, and the words behind them are as they were;
 * else no word of the table is written. All four values are always written. Promise: SaysOfRead stage_rule.
 */
uint32_t lorikvar_read_stage(const uint8_t *input, size_t length, uint32_t *table, size_t words,
                             size_t values[LORIKVAR_VALUES]);

/* Reads a run into a table, likewise. Promise: SaysOfRead run_rule. */
uint32_t lorikvar_read_run(const uint8_t *input, size_t length, uint32_t *table, size_t words,
                           size_t values[LORIKVAR_VALUES]);

/*
 * The bytes from start to end. Returns true with part = {start, end}, where start <= end <= length; else false with
 * part = {0, 0}. No byte of the input is read. Promise: SaysPart (span_part ..).
 */
bool lorikvar_span_bytes(const uint8_t *input, size_t length, size_t start, size_t end, size_t part[LORIKVAR_PART]);

/*
 * The bytes of a record, by its number. `count` is what the read gave; the table may be any words, read or not.
 * Returns true with part = {start, end} of the record, where number < count, the table holds such a record, and its
 * span is in the input; else false with part = {0, 0}. No byte of the input is read.
 * Promise: SaysPart (record_part ..).
 */
bool lorikvar_record_bytes(const uint8_t *input, size_t length, const uint32_t *table, size_t words, size_t count,
                           size_t number, size_t part[LORIKVAR_PART]);

#ifdef __cplusplus
}
#endif

#endif
