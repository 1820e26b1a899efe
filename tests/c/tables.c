/* Tables of any length: w words hold w / LORIKVAR_ROW_WORDS records, and what is not a record's stays as it was. */
#include "check.h"

/* Room for four records. */
#define ROOM (4 * LORIKVAR_ROW_WORDS)

/* An input of three records into a table of w words, which stands in a larger one. */
static void into(char reading, size_t w)
{
    uint32_t room[ROOM];
    size_t values[LORIKVAR_VALUES];
    uint32_t number;
    mark_words(room, ROOM);
    mark_values(values, LORIKVAR_VALUES);
    number = read_by(reading, bytes("<a/>"), 4, room, w, values);
    if (w / LORIKVAR_ROW_WORDS < 3) {
        CHECK(number == LORIKVAR_REFUSAL_TABLE_TOO_SMALL);
        CHECK(values_are(values, 3, 0, 0, 0));
        CHECK(marks_stand(room, 0, ROOM));
        return;
    }
    CHECK(number == LORIKVAR_ACCEPTED);
    CHECK(values_are(values, 3, 0, 0, 0));
    CHECK(room[LORIKVAR_WORD_KIND] == LORIKVAR_KIND_ELEMENT);
    CHECK(room[LORIKVAR_WORD_PARENT] == LORIKVAR_NO_PARENT);
    CHECK(room[2 * LORIKVAR_ROW_WORDS + LORIKVAR_WORD_EXTRA] == 0);
    CHECK(room[2 * LORIKVAR_ROW_WORDS + LORIKVAR_WORD_DEPTH] == 2);
    CHECK(marks_stand(room, 3 * LORIKVAR_ROW_WORDS, ROOM));
}

/* The empty run needs no record, so any table is good, and none is written. */
static void empty_run_into(size_t w)
{
    uint32_t room[ROOM];
    size_t values[LORIKVAR_VALUES];
    mark_words(room, ROOM);
    mark_values(values, LORIKVAR_VALUES);
    CHECK(lorikvar_read_run(bytes(""), 0, room, w, values) == LORIKVAR_ACCEPTED);
    CHECK(values_are(values, 0, 0, 0, 0));
    CHECK(marks_stand(room, 0, ROOM));
}

/* A refusal of the reading comes before 15. */
static void refused_before_15(void)
{
    uint32_t room[ROOM];
    size_t values[LORIKVAR_VALUES];
    mark_words(room, ROOM);
    CHECK(lorikvar_read_stage(bytes("<a>"), 3, room, 0, values) == LORIKVAR_REFUSAL_END_OF_INPUT);
    CHECK(lorikvar_read_run(bytes("<a>"), 3, room, 1, values) == LORIKVAR_REFUSAL_END_OF_INPUT);
    CHECK(marks_stand(room, 0, ROOM));
}

void test_tables(void)
{
    size_t w;
    about("tables of fewer words than four records have");
    for (w = 0; w < ROOM; w++) {
        into('s', w);
        into('r', w);
        empty_run_into(w);
    }
    refused_before_15();
}
