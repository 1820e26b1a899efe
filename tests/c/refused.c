/* Each refusal with its places; the same from the check and from the read, which leaves the table as it was. */
#include "check.h"

#include <stdlib.h>
#include <string.h>

#define WORDS (100 * LORIKVAR_ROW_WORDS)

struct refused {
    char reading;
    const char *input;
    uint32_t number;
    size_t places[LORIKVAR_VALUES];
};

static const struct refused cases[] = {
    /* Document 01's starred inputs. */
    {'s', "<v></w>", LORIKVAR_REFUSAL_NAMES_DIFFER, {1, 2, 5, 6}},
    {'s', "<></a>", LORIKVAR_REFUSAL_FRAGMENT_CLOSED_BY_NAME, {0, 2, 4, 5}},
    {'s', "<a></>", LORIKVAR_REFUSAL_ELEMENT_CLOSED_BY_FRAGMENT, {1, 2, 3, 6}},
    {'s', "<f.b-/>", LORIKVAR_REFUSAL_DASH_AFTER_DOT, {3, 5, 0, 0}},
    {'s', "<a b={}/>", LORIKVAR_REFUSAL_EMPTY_VALUE, {5, 7, 0, 0}},
    {'s', "<a/><b/>", LORIKVAR_REFUSAL_ADJACENT, {4, 5, 0, 0}},
    {'s', "<a/> x", LORIKVAR_REFUSAL_AFTER_STAGE, {5, 5, 0, 0}},
    {'s', "<a>}</a>", LORIKVAR_REFUSAL_STRAY_IN_TEXT, {3, 3, 0, 0}},
    /* Its others, and its easy slips. */
    {'s', "", LORIKVAR_REFUSAL_END_OF_INPUT, {0, 0, 0, 0}},
    {'s', "<a>x", LORIKVAR_REFUSAL_END_OF_INPUT, {4, 4, 0, 0}},
    {'s', "<v></w", LORIKVAR_REFUSAL_END_OF_INPUT, {6, 6, 0, 0}},
    {'s', "<x>{a, b}</x>", LORIKVAR_REFUSAL_COMMA_IN_BRACES, {5, 6, 0, 0}},
    /* The numbers that are not among those. */
    {'s', "<a>\xE2\x28</a>", LORIKVAR_REFUSAL_NOT_UTF8, {3, 3, 0, 0}},
    {'r', "A\xE2\x28\xA1", LORIKVAR_REFUSAL_NOT_UTF8, {1, 1, 0, 0}},
    {'s', "x", LORIKVAR_REFUSAL_UNEXPECTED, {0, 0, 0, 0}},
    {'s', "<a>{if}</a>", LORIKVAR_REFUSAL_UNEXPECTED, {4, 4, 0, 0}},
    {'s', "<a>{'b\\'}</a>", LORIKVAR_REFUSAL_UNEXPECTED, {6, 6, 0, 0}},
    /* What is never closed: a quoted attribute string, in braces or not; a comment; a string in braces. */
    {'s', "<a b=\"x/>", LORIKVAR_REFUSAL_QUOTED_NEVER_CLOSED, {5, 5, 0, 0}},
    {'s', "<a b='x\n", LORIKVAR_REFUSAL_QUOTED_NEVER_CLOSED, {5, 5, 0, 0}},
    {'s', "<a>{<b c=\"x", LORIKVAR_REFUSAL_QUOTED_NEVER_CLOSED, {9, 9, 0, 0}},
    {'s', "<a /*", LORIKVAR_REFUSAL_COMMENT_NEVER_CLOSED, {3, 3, 0, 0}},
    {'s', "<a>{/*'", LORIKVAR_REFUSAL_COMMENT_NEVER_CLOSED, {4, 4, 0, 0}},
    {'r', "</*", LORIKVAR_REFUSAL_COMMENT_NEVER_CLOSED, {1, 1, 0, 0}},
    {'s', "<a>{\"b", LORIKVAR_REFUSAL_STRING_NEVER_CLOSED, {4, 4, 0, 0}},
    {'s', "<a>{'/*", LORIKVAR_REFUSAL_STRING_NEVER_CLOSED, {4, 4, 0, 0}},
    {'r', "{\"x", LORIKVAR_REFUSAL_STRING_NEVER_CLOSED, {1, 1, 0, 0}},
    /* A string in braces that LF or CR breaks: from its quote to the line end. */
    {'s', "<a>{\"b\n\"}</a>", LORIKVAR_REFUSAL_UNEXPECTED, {4, 6, 0, 0}},
    {'s', "<a>{\"b\r\n\"}</a>", LORIKVAR_REFUSAL_UNEXPECTED, {4, 6, 0, 0}},
    {'r', "{'\n", LORIKVAR_REFUSAL_UNEXPECTED, {1, 2, 0, 0}},
    {'s', "<a>{\"b\\\n", LORIKVAR_REFUSAL_UNEXPECTED, {6, 6, 0, 0}},
    /* ECMA-262's blanks are passed, and count their bytes; what only looks like one is no blank. */
    {'s', "\xEF\xBB\xBF", LORIKVAR_REFUSAL_END_OF_INPUT, {3, 3, 0, 0}},
    {'s', "<a b={\xE3\x80\x80}/>", LORIKVAR_REFUSAL_EMPTY_VALUE, {5, 10, 0, 0}},
    {'s', "<a/>//\xE2\x80\xA8<b/>", LORIKVAR_REFUSAL_ADJACENT, {9, 10, 0, 0}},
    {'s', "<a/>\xC2\xA0x", LORIKVAR_REFUSAL_AFTER_STAGE, {6, 6, 0, 0}},
    {'s', "<a\xE2\x80\x8B/>", LORIKVAR_REFUSAL_UNEXPECTED, {2, 2, 0, 0}},
    {'s', "<a\xC2\x85/>", LORIKVAR_REFUSAL_UNEXPECTED, {2, 2, 0, 0}},
    {'s', "<a/>\xE2\x80\x8B", LORIKVAR_REFUSAL_AFTER_STAGE, {4, 4, 0, 0}},
    {'s', "<a\xE2\x80", LORIKVAR_REFUSAL_NOT_UTF8, {2, 2, 0, 0}},
    {'r', "<\xC2\xA0/a>", LORIKVAR_REFUSAL_UNEXPECTED, {0, 0, 0, 0}},
    /* A character that is none of a name's, or that cannot come first, is 3 at its first byte. */
    {'s', "<\xC3\x97/>", LORIKVAR_REFUSAL_UNEXPECTED, {1, 1, 0, 0}},
    {'s', "<a\xC3\x97/>", LORIKVAR_REFUSAL_UNEXPECTED, {2, 2, 0, 0}},
    {'s', "<\xF0\x9F\x98\x80/>", LORIKVAR_REFUSAL_UNEXPECTED, {1, 1, 0, 0}},
    {'s', "<\xEE\x80\x80/>", LORIKVAR_REFUSAL_UNEXPECTED, {1, 1, 0, 0}},
    {'s', "<a\xE2\x80\x90" "b/>", LORIKVAR_REFUSAL_UNEXPECTED, {2, 2, 0, 0}},
    {'s', "<\xCC\x81/>", LORIKVAR_REFUSAL_UNEXPECTED, {1, 1, 0, 0}},
    {'s', "<\xE2\x80\x8D/>", LORIKVAR_REFUSAL_UNEXPECTED, {1, 1, 0, 0}},
    {'s', "<a \xCC\x81/>", LORIKVAR_REFUSAL_UNEXPECTED, {3, 3, 0, 0}},
    {'s', "<a.\xCC\x81/>", LORIKVAR_REFUSAL_UNEXPECTED, {3, 3, 0, 0}},
    {'s', "<a:\xCC\x81/>", LORIKVAR_REFUSAL_UNEXPECTED, {3, 3, 0, 0}},
    {'s', "<a></\xCC\x81>", LORIKVAR_REFUSAL_UNEXPECTED, {5, 5, 0, 0}},
    {'s', "<a b='c'\xCC\x81/>", LORIKVAR_REFUSAL_UNEXPECTED, {8, 8, 0, 0}},
    {'s', "<\xC3\xA9\\u0061/>", LORIKVAR_REFUSAL_UNEXPECTED, {3, 3, 0, 0}},
    {'r', "<\xCE\xBB \xC2\xB2/>", LORIKVAR_REFUSAL_UNEXPECTED, {4, 4, 0, 0}},
    /* Names of expressions are ASCII. */
    {'s', "<a>{\xC3\xA9}</a>", LORIKVAR_REFUSAL_UNEXPECTED, {4, 4, 0, 0}},
    {'s', "<a>{a\xC3\xA9}</a>", LORIKVAR_REFUSAL_UNEXPECTED, {5, 5, 0, 0}},
    {'s', "<a>{a.\xC3\xA9}</a>", LORIKVAR_REFUSAL_UNEXPECTED, {6, 6, 0, 0}},
    {'s', "<a>{1\xC3\xA9}</a>", LORIKVAR_REFUSAL_UNEXPECTED, {5, 5, 0, 0}},
    {'s', "<a>{if\xC3\xA9}</a>", LORIKVAR_REFUSAL_UNEXPECTED, {4, 4, 0, 0}},
    /* Closing names are compared byte for byte: composed or not, in either case, with U+200D or without it. */
    {'s', "<\xC3\xA9></e\xCC\x81>", LORIKVAR_REFUSAL_NAMES_DIFFER, {1, 3, 6, 9}},
    {'s', "<\xE2\x84\xAB></\xC3\x85>", LORIKVAR_REFUSAL_NAMES_DIFFER, {1, 4, 7, 9}},
    {'s', "<\xEF\xA4\x80></\xE8\xB1\x88>", LORIKVAR_REFUSAL_NAMES_DIFFER, {1, 4, 7, 10}},
    {'s', "<\xC3\x89></\xC3\xA9>", LORIKVAR_REFUSAL_NAMES_DIFFER, {1, 3, 6, 8}},
    {'s', "<a></a\xE2\x80\x8D>", LORIKVAR_REFUSAL_NAMES_DIFFER, {1, 2, 5, 9}},
    {'s', "<a.\xCE\xBB></a.\xCE\xBC>", LORIKVAR_REFUSAL_NAMES_DIFFER, {1, 5, 8, 12}},
    {'r', "x<\xC3\xA9></\xED\x95\x9C>", LORIKVAR_REFUSAL_NAMES_DIFFER, {2, 4, 7, 10}},
    /* Other refusals whose places are such names, or stand behind them. */
    {'s', "<></\xC3\xA9>", LORIKVAR_REFUSAL_FRAGMENT_CLOSED_BY_NAME, {0, 2, 4, 6}},
    {'s', "<\xC3\xA9></>", LORIKVAR_REFUSAL_ELEMENT_CLOSED_BY_FRAGMENT, {1, 3, 4, 7}},
    {'s', "<a.\xC3\xA9-/>", LORIKVAR_REFUSAL_DASH_AFTER_DOT, {3, 6, 0, 0}},
    {'s', "<\xC3\xA9/><\xC3\xA9/>", LORIKVAR_REFUSAL_ADJACENT, {5, 6, 0, 0}},
    {'s', "<\xC3\xA9", LORIKVAR_REFUSAL_END_OF_INPUT, {3, 3, 0, 0}},
    {'s', "<a></\xC3\xA9", LORIKVAR_REFUSAL_END_OF_INPUT, {7, 7, 0, 0}},
    {'s', "<\xED\x95", LORIKVAR_REFUSAL_NOT_UTF8, {1, 1, 0, 0}},
    /* Runs. */
    {'r', "</>", LORIKVAR_REFUSAL_UNEXPECTED, {0, 0, 0, 0}},
    {'r', "a< /b>", LORIKVAR_REFUSAL_UNEXPECTED, {1, 1, 0, 0}},
    {'r', "hi>", LORIKVAR_REFUSAL_STRAY_IN_TEXT, {2, 2, 0, 0}},
    {'r', "x<v></w>", LORIKVAR_REFUSAL_NAMES_DIFFER, {2, 3, 6, 7}},
    {'r', "{a", LORIKVAR_REFUSAL_END_OF_INPUT, {2, 2, 0, 0}},
    {'r', "{<a/><b/>}", LORIKVAR_REFUSAL_ADJACENT, {5, 6, 0, 0}}
};

static void refuses(char reading, const uint8_t *input, size_t length, uint32_t number, const size_t *p)
{
    uint32_t table[WORDS];
    size_t values[LORIKVAR_VALUES];
    mark_values(values, LORIKVAR_VALUES);
    CHECK(check_by(reading, input, length, values) == number);
    CHECK(values_are(values, p[0], p[1], p[2], p[3]));
    mark_values(values, LORIKVAR_VALUES);
    mark_words(table, WORDS);
    CHECK(read_by(reading, input, length, table, WORDS, values) == number);
    CHECK(values_are(values, p[0], p[1], p[2], p[3]));
    CHECK(marks_stand(table, 0, WORDS));
}

/* 14: 64 levels are good, and the 65th is refused at its first byte. */
static void depth(char reading)
{
    char *deep = nested("<a>", LORIKVAR_MOST_DEPTH, "", "</a>");
    char *deeper = nested("<a>", LORIKVAR_MOST_DEPTH + 1, "", "</a>");
    size_t values[LORIKVAR_VALUES];
    size_t places[LORIKVAR_VALUES] = {3 * LORIKVAR_MOST_DEPTH, 3 * LORIKVAR_MOST_DEPTH, 0, 0};
    about("depth");
    CHECK(check_by(reading, bytes(deep), strlen(deep), values) == LORIKVAR_ACCEPTED);
    CHECK(values_are(values, 5 * LORIKVAR_MOST_DEPTH, 0, 0, 0));
    refuses(reading, bytes(deeper), strlen(deeper), LORIKVAR_REFUSAL_TOO_DEEP, places);
    free(deep);
    free(deeper);
}

/* Behind 64 levels a name's first character is 14 at the `<`; a character that begins no name is 3 at itself. */
static void deep_names(char reading)
{
    char *named = nested("<a>", LORIKVAR_MOST_DEPTH, "<\xC3\xA9", "");
    char *unnamed = nested("<a>", LORIKVAR_MOST_DEPTH, "<\xCC\x81", "");
    size_t less[LORIKVAR_VALUES] = {3 * LORIKVAR_MOST_DEPTH, 3 * LORIKVAR_MOST_DEPTH, 0, 0};
    size_t behind[LORIKVAR_VALUES] = {3 * LORIKVAR_MOST_DEPTH + 1, 3 * LORIKVAR_MOST_DEPTH + 1, 0, 0};
    about("depth and names beyond ASCII");
    refuses(reading, bytes(named), strlen(named), LORIKVAR_REFUSAL_TOO_DEEP, less);
    refuses(reading, bytes(unnamed), strlen(unnamed), LORIKVAR_REFUSAL_UNEXPECTED, behind);
    free(named);
    free(unnamed);
}

/* 1 and 2: the longest input that is good, and one byte more. Length is tested first, then UTF-8, then the rest. */
static void length(char reading)
{
    size_t most = LORIKVAR_MOST_BYTES;
    char *input = malloc(most + 1);
    size_t values[LORIKVAR_VALUES];
    const size_t none[LORIKVAR_VALUES] = {0, 0, 0, 0};
    const size_t last[LORIKVAR_VALUES] = {LORIKVAR_MOST_BYTES - 1, LORIKVAR_MOST_BYTES - 1, 0, 0};
    about("length");
    CHECK(input != NULL);
    memset(input, ' ', most + 1);
    memcpy(input, "<a/>", 4);
    CHECK(check_by(reading, bytes(input), most, values) == LORIKVAR_ACCEPTED);
    CHECK(values_are(values, reading == 's' ? 3 : 4, 0, 0, 0));
    refuses(reading, bytes(input), most + 1, LORIKVAR_REFUSAL_TOO_LONG, none);
    input[most - 1] = '\xFF';
    refuses(reading, bytes(input), most + 1, LORIKVAR_REFUSAL_TOO_LONG, none);
    input[0] = '}';
    refuses(reading, bytes(input), most, LORIKVAR_REFUSAL_NOT_UTF8, last);
    free(input);
}

void test_refused(void)
{
    size_t k;
    for (k = 0; k < sizeof cases / sizeof cases[0]; k++) {
        about(cases[k].input);
        refuses(cases[k].reading, bytes(cases[k].input), strlen(cases[k].input), cases[k].number, cases[k].places);
    }
    depth('s');
    depth('r');
    deep_names('s');
    deep_names('r');
    length('s');
    length('r');
}
