/* Inputs that are accepted, with their whole tables. */
#include "check.h"

#include <stdlib.h>
#include <string.h>

#define MOST 24
#define NONE LORIKVAR_NO_PARENT

struct accepted {
    char reading;
    const char *input;
    size_t count;
    uint32_t rows[MOST][LORIKVAR_ROW_WORDS];
};

/* kind, start, end, parent, after, extra, depth; worked out by hand from documents 01 and 02. */
static const struct accepted cases[] = {
    {'s', "<a/>", 3, {{1, 0, 4, NONE, 3, 0, 0}, {18, 0, 4, 0, 3, 0, 1}, {3, 1, 2, 1, 3, 0, 2}}},
    {'s',
     "<v>hi</v>",
     6,
     {{1, 0, 9, NONE, 6, 1, 0},
      {18, 0, 3, 0, 3, 0, 1},
      {3, 1, 2, 1, 3, 0, 2},
      {14, 3, 5, 0, 4, 0, 1},
      {17, 5, 9, 0, 6, 0, 1},
      {3, 7, 8, 4, 6, 0, 2}}},
    {'s',
     "<a-b.c/>",
     5,
     {{1, 0, 8, NONE, 5, 0, 0},
      {18, 0, 8, 0, 5, 0, 1},
      {7, 1, 6, 1, 5, 0, 2},
      {4, 1, 4, 2, 4, 1, 3},
      {16, 5, 6, 2, 5, 0, 3}}},
    {'s',
     "<a>{}</a>",
     7,
     {{1, 0, 9, NONE, 7, 1, 0},
      {18, 0, 3, 0, 3, 0, 1},
      {3, 1, 2, 1, 3, 0, 2},
      {11, 3, 5, 0, 5, 0, 1},
      {12, 4, 4, 3, 5, 0, 2},
      {17, 5, 9, 0, 7, 0, 1},
      {3, 7, 8, 5, 7, 0, 2}}},
    {'s',
     "<a b=\"\\\"/>",
     6,
     {{1, 0, 10, NONE, 6, 0, 0},
      {18, 0, 10, 0, 6, 0, 1},
      {3, 1, 2, 1, 3, 0, 2},
      {8, 3, 8, 1, 6, 0, 2},
      {16, 3, 4, 3, 5, 0, 3},
      {10, 5, 8, 3, 6, 0, 3}}},
    {'s',
     "<foo.bar/>",
     5,
     {{1, 0, 10, NONE, 5, 0, 0},
      {18, 0, 10, 0, 5, 0, 1},
      {7, 1, 8, 1, 5, 0, 2},
      {4, 1, 4, 2, 4, 0, 3},
      {16, 5, 8, 2, 5, 0, 3}}},
    /* The kinds that stand in none of the above: 2, 5, 6, 9, 13, 15. */
    {'s',
     "<this x:y-z {...p}>{...q}{<></>}</this>",
     18,
     {{1, 0, 39, NONE, 18, 1, 0},
      {18, 0, 19, 0, 9, 0, 1},
      {5, 1, 5, 1, 3, 0, 2},
      {8, 6, 11, 1, 7, 0, 2},
      {6, 6, 11, 3, 7, 0, 3},
      {16, 6, 7, 4, 6, 0, 4},
      {16, 8, 11, 4, 7, 1, 4},
      {9, 12, 18, 1, 9, 0, 2},
      {15, 16, 17, 7, 9, 0, 3},
      {13, 19, 25, 0, 11, 0, 1},
      {15, 23, 24, 9, 11, 0, 2},
      {11, 25, 32, 0, 16, 0, 1},
      {15, 26, 31, 11, 16, 0, 2},
      {2, 26, 31, 12, 16, 0, 3},
      {18, 26, 28, 13, 15, 0, 4},
      {17, 28, 31, 13, 16, 0, 4},
      {17, 32, 39, 0, 18, 0, 1},
      {5, 34, 38, 16, 18, 0, 2}}},
    /* Parentheses are no records. */
    {'s',
     "<a>{((<b/>))}</a>",
     10,
     {{1, 0, 17, NONE, 10, 1, 0},
      {18, 0, 3, 0, 3, 0, 1},
      {3, 1, 2, 1, 3, 0, 2},
      {11, 3, 13, 0, 8, 0, 1},
      {15, 4, 12, 3, 8, 0, 2},
      {1, 6, 10, 4, 8, 0, 3},
      {18, 6, 10, 5, 8, 0, 4},
      {3, 7, 8, 6, 8, 0, 5},
      {17, 13, 17, 0, 10, 0, 1},
      {3, 15, 16, 8, 10, 0, 2}}},
    /* ECMA-262's blanks between tokens: no-break spaces, a byte order mark in front, U+2028 behind a comment. */
    {'s',
     "<a\xC2\xA0" "b/>",
     5,
     {{1, 0, 7, NONE, 5, 0, 0},
      {18, 0, 7, 0, 5, 0, 1},
      {3, 1, 2, 1, 3, 0, 2},
      {8, 4, 5, 1, 5, 0, 2},
      {16, 4, 5, 3, 5, 0, 3}}},
    {'s', "\xEF\xBB\xBF<a/>", 3, {{1, 3, 7, NONE, 3, 0, 0}, {18, 3, 7, 0, 3, 0, 1}, {3, 4, 5, 1, 3, 0, 2}}},
    {'s',
     "<a//x\xE2\x80\xA8" "b/>",
     5,
     {{1, 0, 11, NONE, 5, 0, 0},
      {18, 0, 11, 0, 5, 0, 1},
      {3, 1, 2, 1, 3, 0, 2},
      {8, 8, 9, 1, 5, 0, 2},
      {16, 8, 9, 3, 5, 0, 3}}},
    {'s', "<a/>//\xE2\x80\xA9", 3, {{1, 0, 4, NONE, 3, 0, 0}, {18, 0, 4, 0, 3, 0, 1}, {3, 1, 2, 1, 3, 0, 2}}},
    {'s',
     "<a>{\xC2\xA0}</a>",
     7,
     {{1, 0, 11, NONE, 7, 1, 0},
      {18, 0, 3, 0, 3, 0, 1},
      {3, 1, 2, 1, 3, 0, 2},
      {11, 3, 7, 0, 5, 0, 1},
      {12, 4, 6, 3, 5, 0, 2},
      {17, 7, 11, 0, 7, 0, 1},
      {3, 9, 10, 5, 7, 0, 2}}},
    /* In child position they are text. */
    {'r', "\xEF\xBB\xBF", 1, {{14, 0, 3, NONE, 1, 0, 0}}},
    /* Names beyond ASCII, of two, three and four bytes: a reference; with a dash, or behind a letter, an identifier. */
    {'s', "<\xED\x95\x9C/>", 3, {{1, 0, 6, NONE, 3, 0, 0}, {18, 0, 6, 0, 3, 0, 1}, {4, 1, 4, 1, 3, 0, 2}}},
    {'s', "<\xF0\xB3\x91\xB9/>", 3, {{1, 0, 7, NONE, 3, 0, 0}, {18, 0, 7, 0, 3, 0, 1}, {4, 1, 5, 1, 3, 0, 2}}},
    {'s', "<\xC3\xA9-/>", 3, {{1, 0, 6, NONE, 3, 0, 0}, {18, 0, 6, 0, 3, 0, 1}, {3, 1, 4, 1, 3, 1, 2}}},
    {'s', "<a\xC3\xA9/>", 3, {{1, 0, 6, NONE, 3, 0, 0}, {18, 0, 6, 0, 3, 0, 1}, {3, 1, 4, 1, 3, 0, 2}}},
    {'s', "<A\xC3\xA9/>", 3, {{1, 0, 6, NONE, 3, 0, 0}, {18, 0, 6, 0, 3, 0, 1}, {4, 1, 4, 1, 3, 0, 2}}},
    {'s', "<this\xC3\xA9/>", 3, {{1, 0, 9, NONE, 3, 0, 0}, {18, 0, 9, 0, 3, 0, 1}, {3, 1, 7, 1, 3, 0, 2}}},
    /* Later characters: U+0301, U+200C, U+200D; a blank beyond ASCII ends a name. */
    {'s',
     "<a\xCC\x81\xE2\x80\x8C\xE2\x80\x8D/>",
     3,
     {{1, 0, 12, NONE, 3, 0, 0}, {18, 0, 12, 0, 3, 0, 1}, {3, 1, 10, 1, 3, 0, 2}}},
    {'s',
     "<\xC2\xA0\xC3\xA9\xC2\xA0/>",
     3,
     {{1, 0, 9, NONE, 3, 0, 0}, {18, 0, 9, 0, 3, 0, 1}, {4, 3, 5, 1, 3, 0, 2}}},
    /* In every place of a name: attributes, namespaces, members, closing tags. */
    {'s',
     "<\xED\x95\x9C \xCE\xBB:\xEA\xB8\x80-b \xC3\xA9='1'>hi</\xED\x95\x9C>",
     13,
     {{1, 0, 29, NONE, 13, 1, 0},
      {18, 0, 21, 0, 10, 0, 1},
      {4, 1, 4, 1, 3, 0, 2},
      {8, 5, 13, 1, 7, 0, 2},
      {6, 5, 13, 3, 7, 0, 3},
      {16, 5, 7, 4, 6, 0, 4},
      {16, 8, 13, 4, 7, 1, 4},
      {8, 14, 20, 1, 10, 0, 2},
      {16, 14, 16, 7, 9, 0, 3},
      {10, 17, 20, 7, 10, 0, 3},
      {14, 21, 23, 0, 11, 0, 1},
      {17, 23, 29, 0, 13, 0, 1},
      {4, 25, 28, 11, 13, 0, 2}}},
    {'s',
     "<\xC3\xA9-a.\xCE\xBB.\xED\x95\x9C></\xC3\xA9-a.\xCE\xBB.\xED\x95\x9C>",
     11,
     {{1, 0, 27, NONE, 11, 1, 0},
      {18, 0, 13, 0, 6, 0, 1},
      {7, 1, 12, 1, 6, 0, 2},
      {4, 1, 5, 2, 4, 1, 3},
      {16, 6, 8, 2, 5, 0, 3},
      {16, 9, 12, 2, 6, 0, 3},
      {17, 13, 27, 0, 11, 0, 1},
      {7, 15, 26, 6, 11, 0, 2},
      {4, 15, 19, 7, 9, 1, 3},
      {16, 20, 22, 7, 10, 0, 3},
      {16, 23, 26, 7, 11, 0, 3}}},
    {'s',
     "<\xCE\xB1:\xCE\xB2></\xCE\xB1:\xCE\xB2>",
     9,
     {{1, 0, 15, NONE, 9, 1, 0},
      {18, 0, 7, 0, 5, 0, 1},
      {6, 1, 6, 1, 5, 0, 2},
      {16, 1, 3, 2, 4, 0, 3},
      {16, 4, 6, 2, 5, 0, 3},
      {17, 7, 15, 0, 9, 0, 1},
      {6, 9, 14, 5, 9, 0, 2},
      {16, 9, 11, 6, 8, 0, 3},
      {16, 12, 14, 6, 9, 0, 3}}},
    /* An attribute begins at such a name with no blank behind a string; a tag in braces has such names. */
    {'s',
     "<a b='c'\xC3\xA9/>",
     8,
     {{1, 0, 12, NONE, 8, 0, 0},
      {18, 0, 12, 0, 8, 0, 1},
      {3, 1, 2, 1, 3, 0, 2},
      {8, 3, 8, 1, 6, 0, 2},
      {16, 3, 4, 3, 5, 0, 3},
      {10, 5, 8, 3, 6, 0, 3},
      {8, 8, 10, 1, 8, 0, 2},
      {16, 8, 10, 6, 8, 0, 3}}},
    {'r',
     "{<\xC3\xA9 \xCE\xBB={b}/>}",
     9,
     {{11, 0, 14, NONE, 9, 0, 0},
      {15, 1, 13, 0, 9, 0, 1},
      {1, 1, 13, 1, 9, 0, 2},
      {18, 1, 13, 2, 9, 0, 3},
      {4, 2, 4, 3, 5, 0, 4},
      {8, 5, 11, 3, 9, 0, 4},
      {16, 5, 7, 5, 7, 0, 5},
      {11, 8, 11, 5, 9, 0, 5},
      {15, 9, 10, 7, 9, 0, 6}}},
    {'r', "", 0, {{0, 0, 0, 0, 0, 0, 0}}},
    {'r', "hi", 1, {{14, 0, 2, NONE, 1, 0, 0}}},
    {'r', "yo", 1, {{14, 0, 2, NONE, 1, 0, 0}}},
    {'r', "hiyo", 1, {{14, 0, 4, NONE, 1, 0, 0}}},
    {'r',
     "<a/> x",
     4,
     {{1, 0, 4, NONE, 3, 0, 0}, {18, 0, 4, 0, 3, 0, 1}, {3, 1, 2, 1, 3, 0, 2}, {14, 4, 6, NONE, 4, 0, 0}}},
    {'r',
     "x<a/>",
     4,
     {{14, 0, 1, NONE, 1, 0, 0}, {1, 1, 5, NONE, 4, 0, 0}, {18, 1, 5, 1, 4, 0, 1}, {3, 2, 3, 2, 4, 0, 2}}}
};

/* The check counts, and the read writes just these words, into a table of as many words and into one of more. */
static void one(const struct accepted *c, size_t more)
{
    uint32_t table[MOST * LORIKVAR_ROW_WORDS];
    size_t values[LORIKVAR_VALUES];
    size_t length = strlen(c->input);
    size_t words = c->count * LORIKVAR_ROW_WORDS;
    about(c->input);
    mark_values(values, LORIKVAR_VALUES);
    CHECK(check_by(c->reading, bytes(c->input), length, values) == LORIKVAR_ACCEPTED);
    CHECK(values_are(values, c->count, 0, 0, 0));
    mark_values(values, LORIKVAR_VALUES);
    mark_words(table, MOST * LORIKVAR_ROW_WORDS);
    CHECK(read_by(c->reading, bytes(c->input), length, table, words + more, values) == LORIKVAR_ACCEPTED);
    CHECK(values_are(values, c->count, 0, 0, 0));
    CHECK(memcmp(table, c->rows, words * sizeof table[0]) == 0);
    CHECK(marks_stand(table, words, MOST * LORIKVAR_ROW_WORDS));
}

/* The most ancestors that a record can have: three for each element around a value, and four more in the last. */
static void greatest_depth(void)
{
    char *input = nested("<a b=", LORIKVAR_MOST_DEPTH - 1, "<a b:c/>", "/>");
    size_t count = 5 * (LORIKVAR_MOST_DEPTH - 1) + 7;
    size_t words = count * LORIKVAR_ROW_WORDS;
    uint32_t *table = malloc(words * sizeof *table);
    size_t values[LORIKVAR_VALUES];
    about("the greatest depth");
    CHECK(table != NULL);
    CHECK(lorikvar_read_stage(bytes(input), strlen(input), table, words, values) == LORIKVAR_ACCEPTED);
    CHECK(values_are(values, count, 0, 0, 0));
    CHECK(table[words - LORIKVAR_ROW_WORDS + LORIKVAR_WORD_DEPTH] == 193);
    free(table);
    free(input);
}

void test_accepted(void)
{
    size_t k;
    for (k = 0; k < sizeof cases / sizeof cases[0]; k++) {
        one(&cases[k], 0);
        one(&cases[k], LORIKVAR_ROW_WORDS - 1);
        one(&cases[k], LORIKVAR_ROW_WORDS);
    }
    greatest_depth();
}
