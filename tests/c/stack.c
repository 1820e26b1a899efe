/* The stack that a call uses at the greatest depth, measured: a thread runs on a painted stack, and what is left of
 * the paint tells how far down it came. */
#define _DEFAULT_SOURCE
#include "check.h"

#include <pthread.h>
#include <stdio.h>
#include <stdlib.h>
#include <string.h>
#include <sys/mman.h>

#define ROOM ((size_t)1 << 20)
#define PAINT 0xA5

/* What the header says. */
#define MOST_STACK ((size_t)128 * 1024)

/* `part` so many times, around `middle`, inside `outer` and `shut`. */
struct deep {
    const char *outer;
    const char *part;
    size_t times;
    const char *middle;
    const char *end;
    const char *shut;
};

/* One form of depth each; all are accepted as runs, with 64 levels or as near to it as the form comes. */
static const struct deep forms[] = {
    {"", "<a>", 64, "", "</a>", ""},
    {"", "<>", 64, "", "</>", ""},
    {"", "<a b=", 63, "<a/>", "/>", ""},
    {"", "<a b={", 31, "<a/>", "}/>", ""},
    {"", "<a {...", 31, "<a/>", "}/>", ""},
    {"", "<a>{", 31, "<a/>", "}</a>", ""},
    {"", "<a>{...", 31, "<a/>", "}</a>", ""},
    {"{", "(", 63, "1", ")", "}"},
    {"{...", "(", 63, "1", ")", "}"},
    {"{...", "x[", 63, "1", "]", "}"},
    {"{...", "x(", 63, "1", ")", "}"},
    {"{...", "x(1,", 63, "1", ")", "}"},
    {"{...", "!", 63, "1", "", "}"},
    {"{...", "x?", 63, "1", ":1", "}"},
    {"{...", "x?1:", 63, "1", "", "}"},
    {"<a b={", "(", 62, "1", ")", "}/>"},
    {"<a>{...", "(", 61, "<a/>", ")", "}</a>"},
    {"<a>{...", "1+(", 62, "1", ")", "}</a>"},
    {"", "<a>{...(", 21, "<a/>", ")}</a>", ""},
    {"", "<a b={x?", 21, "<a/>", ":y}/>", ""},
    {"", "<a b={x[!(", 12, "<a/>", ")]}/>", ""},
    {"", "<\xED\x95\x9C>", 64, "", "</\xED\x95\x9C>", ""},
    {"", "<\xC3\xA9 \xCE\xBB=", 63, "<\xF0\x9E\xA4\x80/>", "/>", ""}
};

struct job {
    const char *input;
    uint32_t *table;
    size_t words;
    uint32_t number;
};

static void *work(void *given)
{
    struct job *j = given;
    size_t values[LORIKVAR_VALUES];
    if (j->input != NULL)
        j->number = lorikvar_read_run(bytes(j->input), strlen(j->input), j->table, j->words, values);
    return NULL;
}

/* The bytes of the stack that a thread with this job touched. */
static size_t used(struct job *j)
{
    unsigned char *room = mmap(NULL, ROOM, PROT_READ | PROT_WRITE, MAP_PRIVATE | MAP_ANONYMOUS, -1, 0);
    pthread_attr_t attributes;
    pthread_t thread;
    size_t low = 0;
    CHECK(room != MAP_FAILED);
    memset(room, PAINT, ROOM);
    CHECK(pthread_attr_init(&attributes) == 0);
    CHECK(pthread_attr_setstack(&attributes, room, ROOM) == 0);
    CHECK(pthread_create(&thread, &attributes, work, j) == 0);
    CHECK(pthread_join(thread, NULL) == 0);
    CHECK(pthread_attr_destroy(&attributes) == 0);
    while (low < ROOM && room[low] == PAINT)
        low++;
    CHECK(munmap(room, ROOM) == 0);
    return ROOM - low;
}

/* The stack that a read of this form used, without what the thread itself takes. */
static size_t used_by(const struct deep *form, struct job *j, size_t own)
{
    char *inner = nested(form->part, form->times, form->middle, form->end);
    char *input = nested(form->outer, 1, inner, form->shut);
    size_t by_call;
    j->input = input;
    j->number = LORIKVAR_REFUSAL_TOO_DEEP;
    about(input);
    by_call = used(j) - own;
    CHECK(j->number == LORIKVAR_ACCEPTED);
    CHECK(by_call < MOST_STACK);
    about("stack");
    free(inner);
    free(input);
    return by_call;
}

void test_stack(void)
{
    size_t words = 1000 * LORIKVAR_ROW_WORDS;
    uint32_t *table = malloc(words * sizeof *table);
    struct job j = {NULL, NULL, 0, 0};
    size_t own, most = 0, k;
    about("stack");
    CHECK(table != NULL);
    own = used(&j);
    j.table = table;
    j.words = words;
    for (k = 0; k < sizeof forms / sizeof forms[0]; k++) {
        size_t by_call = used_by(&forms[k], &j, own);
        most = by_call > most ? by_call : most;
    }
    printf("most stack of a call: %lu bytes\n", (unsigned long)most);
    free(table);
}
