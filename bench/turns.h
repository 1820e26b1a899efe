/* Times of calls, by readers that stand in one process. In each round each reader has its turn, of as many calls as
   take the last one that many milliseconds, and the reader that begins changes from round to round. A line for each
   file, call and reader: file, bytes, records, call, reader, nanoseconds a call in the best round, and in the middle
   one. Time is the thread's own. */
#ifndef LORIKVAR_BENCH_TURNS_H
#define LORIKVAR_BENCH_TURNS_H
#include "calls.h"
#include <time.h>

enum { MOST_ROUNDS = 1001 };

typedef struct {
    int rounds;
    double nanoseconds; /* that a turn takes at least */
} Pace;

static inline double now(void) {
    struct timespec t;
    clock_gettime(CLOCK_THREAD_CPUTIME_ID, &t);
    return 1e9 * (double)t.tv_sec + (double)t.tv_nsec;
}

/* Nanoseconds for so many calls. */
static inline double turn(const Reader *reader, int call, const Input *in, size_t calls) {
    size_t values[4];
    double start = now();
    for (size_t i = 0; i < calls; i++) make_call(reader, call, in, values);
    return now() - start;
}

static inline size_t calls_for(const Reader *reader, int call, const Input *in, double nanoseconds) {
    size_t calls = 1;
    while (turn(reader, call, in, calls) < nanoseconds) calls *= 2;
    return calls;
}

static inline int ascending(const void *x, const void *y) {
    double a = *(const double *)x, b = *(const double *)y;
    return (a > b) - (a < b);
}

/* Whether a reader has turns: not an older port, where it refuses the input. */
static inline int has_turns(const Reader *reader, int call, const Input *in) {
    size_t values[4];
    return call == PASS || make_call(reader, call, in, values) == 0;
}

/* The turns of the first so many readers. */
static inline void measure(int many, int call, const Input *in, size_t records, Pace pace) {
    static double took[PASSES][MOST_ROUNDS];
    size_t calls = calls_for(&readers[many - 1], call, in, pace.nanoseconds);
    int has[PASSES];
    for (int i = 0; i < many; i++) has[i] = has_turns(&readers[i], call, in);
    for (int round = 0; round < pace.rounds; round++)
        for (int i = 0; i < many; i++) {
            int who = (i + round) % many;
            if (has[who]) took[who][round] = turn(&readers[who], call, in, calls) / (double)calls;
        }
    for (int i = 0; i < many; i++) {
        if (!has[i]) continue;
        qsort(took[i], (size_t)pace.rounds, sizeof took[i][0], ascending);
        printf("%s\t%zu\t%zu\t%s\t%s\t%.0f\t%.0f\n", in->name, in->length, records, call_names[call],
               readers[i].name, took[i][0], took[i][pace.rounds / 2]);
    }
    fflush(stdout);
}

/* What else a program times of an input, whose bytes it may change. */
typedef void More(Input *in, uint8_t *bytes, Pace pace);

/* The words of a program are ROUNDS MILLISECONDS FILE..: a check and a read of each file, and more where it is given.
   First the readers are held against each other: status 1 where one answer or word differs. */
static inline int measure_files(int count, char **words, More *more) {
    static uint8_t room[INPUT_LIMIT + 1];
    Pace pace = {count > 3 ? atoi(words[1]) : 0, count > 3 ? 1e6 * atof(words[2]) : 0};
    if (pace.rounds < 1 || pace.rounds > MOST_ROUNDS) fail(words[0], "ROUNDS MILLISECONDS FILE..");
    for (int i = 3; i < count; i++) {
        Input in = {words[i], room, load(words[i], room), 1};
        Answer answer = assert_equal(&in, TABLE_WORDS);
        if (answer.number) fail("not accepted", in.name);
        for (int call = CHECK; call <= READ; call++) measure(READERS, call, &in, answer.values[0], pace);
        if (more) more(&in, room, pace);
    }
    return 0;
}
#endif
