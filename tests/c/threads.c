/* Several threads call at once, on the same inputs and on one table that is only read: each gets what one alone gets. */
#define _DEFAULT_SOURCE
#include "check.h"

#include <pthread.h>
#include <string.h>

#define THREADS 4
#define INPUTS 4
#define TURNS 500
#define WORDS (20 * LORIKVAR_ROW_WORDS)

static const char *const inputs[INPUTS] = {
    "<v>hi</v>", "<a b={c ? <d/> : e}>{...f}</a>", "<v></w>", "<x.y z:w='1'>{}</x.y>"
};

struct answer {
    uint32_t number;
    size_t values[LORIKVAR_VALUES];
    uint32_t table[WORDS];
    bool found;
    size_t part[LORIKVAR_PART];
};

/* What one thread gets, before there are others. */
static struct answer alone[INPUTS];

struct work {
    size_t first;
    size_t differences;
};

/* The read of an input, and a record of the first input's table, which all threads look at. */
static void ask(size_t k, struct answer *a)
{
    const uint8_t *input = bytes(inputs[0]);
    memset(a, 0, sizeof *a);
    a->number = lorikvar_read_stage(bytes(inputs[k]), strlen(inputs[k]), a->table, WORDS, a->values);
    a->found = lorikvar_record_bytes(input, strlen(inputs[0]), alone[0].table, WORDS, 6, k, a->part);
}

static void *turns(void *given)
{
    struct work *w = given;
    struct answer again;
    size_t k;
    for (k = w->first; k < w->first + TURNS; k++) {
        ask(k % INPUTS, &again);
        if (memcmp(&alone[k % INPUTS], &again, sizeof again) != 0)
            w->differences++;
    }
    return NULL;
}

void test_threads(void)
{
    pthread_t threads[THREADS];
    struct work works[THREADS];
    struct answer first;
    size_t k;
    about("threads");
    ask(0, &first);
    memcpy(alone[0].table, first.table, sizeof first.table);
    for (k = 0; k < INPUTS; k++) {
        ask(k, &first);
        memcpy(&alone[k], &first, sizeof first);
        CHECK(first.number == (k == 2 ? LORIKVAR_REFUSAL_NAMES_DIFFER : LORIKVAR_ACCEPTED) && first.found);
    }
    for (k = 0; k < THREADS; k++) {
        works[k].first = k;
        works[k].differences = 0;
        CHECK(pthread_create(&threads[k], NULL, turns, &works[k]) == 0);
    }
    for (k = 0; k < THREADS; k++) {
        CHECK(pthread_join(threads[k], NULL) == 0);
        CHECK(works[k].differences == 0);
    }
}
