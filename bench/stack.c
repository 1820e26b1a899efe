/* stack: the greatest use of stack by each reader at depth 64, for each way to nest, in bytes.

   A call runs on a thread whose stack was painted; what it used reaches from the frame that calls it down to the lowest word that
   changed. A line for each way, with its check and its read; the depth is held to be just 64, for one level more is refusal 14. */
#include "equal.h"
#include <pthread.h>

enum { STACK = 1 << 22, LEVELS = 64 };

static uint64_t stack[STACK / 8] __attribute__((aligned(4096)));
static uint8_t room[INPUT_LIMIT];

/* A way to nest: a front, what opens one turn, the middle, what closes it, and how many levels front and turn have. */
typedef struct {
    const char *name, *front, *open, *middle, *close, *back;
    int outside, each;
} Way;

static const Way ways[] = {
    {"elements", "", "<a>", "x", "</a>", "", 0, 1},
    {"elements with blanks and comments", "", "< a >", "x", "< /**/ / a >", "", 0, 1},
    {"elements with names of two parts", "", "<a:b>", "x", "</a:b>", "", 0, 1},
    {"elements with names of members", "", "<a.b.c>", "x", "</a.b.c>", "", 0, 1},
    {"elements with names of a rare script", "", "<ა>", "x", "</ა>", "", 0, 1},
    {"fragments", "", "<>", "x", "</>", "", 0, 1},
    {"parentheses", "{", "(", "x", ")", "}", 1, 1},
    {"brackets", "{", "x[", "x", "]", "}", 1, 1},
    {"calls, first argument", "{", "f(", "x", ")", "}", 1, 1},
    {"calls, later argument", "{", "f(1, ", "x", ")", "}", 1, 1},
    {"prefix operators", "{", "!", "x", "", "}", 1, 1},
    {"prefix operators, minus with blanks", "{", "- ", "x", "", "}", 1, 1},
    {"conditionals, last arm", "{", "x ? 1 : ", "x", "", "}", 1, 1},
    {"conditionals, middle arm", "{", "x ? ", "x", " : 1", "}", 1, 1},
    {"elements as values", "", "<a b=", "<a/>", "/>", "", 1, 1},
    {"fragments and elements as values", "", "<a b=<>", "x", "</>/>", "", 0, 2},
    {"braces with elements, as children", "", "{<a>", "x", "</a>}", "", 0, 2},
    {"braces with fragments, as children", "", "{<>", "x", "</>}", "", 0, 2},
    {"braces with elements, as values", "", "<a b={", "x", "}/>", "", 0, 2},
    {"braces with elements, as spread attributes", "", "<a {...", "x", "}/>", "", 0, 2},
    {"braces with elements, as spread children", "", "{...<a>", "x", "</a>}", "", 0, 2},
    {"the same with names of a rare script", "", "{...<ა>", "x", "</ა>}", "", 0, 2},
    {"parentheses and elements in braces", "", "{(<a>", "x", "</a>)}", "", 0, 3},
    {"prefix operators and elements in braces", "", "{!<a>", "x", "</a>}", "", 0, 3},
    {"calls and elements in braces", "", "{f(1, <a>", "x", "</a>)}", "", 0, 3},
    {"brackets and elements in braces", "", "{x[<a>", "x", "</a>]}", "", 0, 3},
    {"conditionals and elements in braces", "", "{x ? <a>", "x", "</a> : 1}", "", 0, 3},
    {"operands behind all operators", "{", "1 + 2 * 3 && 4 || (", "x", ")", "}", 1, 1},
    {"prefix operators and parentheses", "{", "!(", "x", ")", "}", 1, 2},
    {"prefix operators, calls and conditionals", "{", "!f(x ? 1 : ", "x", ")", "}", 1, 3},
    {"parentheses, an element inside", "{", "(", "<a:b c:d={1}/>", ")", "}", 3, 1},
};

enum { WAYS = sizeof ways / sizeof *ways };

static size_t add(size_t at, const char *text) {
    size_t n = strlen(text);
    memcpy(room + at, text, n);
    return at + n;
}

/* The way, with so many levels; a turn that no longer fits is filled up with elements around all, which is a level each. */
static Input nested(const Way *way, int levels) {
    int turns = (levels - way->outside) / way->each, more = levels - way->outside - turns * way->each;
    size_t at = 0;
    for (int i = 0; i < more; i++) at = add(at, "<z>");
    at = add(at, way->front);
    for (int i = 0; i < turns; i++) at = add(at, way->open);
    at = add(at, way->middle);
    for (int i = 0; i < turns; i++) at = add(at, way->close);
    at = add(at, way->back);
    for (int i = 0; i < more; i++) at = add(at, "</z>");
    return (Input){way->name, room, at, 1};
}

typedef struct {
    const Reader *reader;
    const Input *in;
    int reads;
    uint32_t number;
    const uint8_t *top;
} Job;

static void *work(void *given) {
    Job *job = given;
    size_t values[4];
    job->top = __builtin_frame_address(0);
    job->number = job->reads ? job->reader->read_run(job->in->bytes, job->in->length, first_table, TABLE_WORDS, values)
                             : job->reader->check_run(job->in->bytes, job->in->length, values);
    return NULL;
}

/* Bytes of stack that one call used. */
static size_t used(const Reader *reader, const Input *in, int reads) {
    Job job = {reader, in, reads, 0, NULL};
    pthread_t thread;
    pthread_attr_t attributes;
    for (size_t i = 0; i < STACK / 8; i++) stack[i] = PAINT;
    pthread_attr_init(&attributes);
    pthread_attr_setstack(&attributes, stack, STACK);
    if (pthread_create(&thread, &attributes, work, &job) || pthread_join(thread, NULL)) fail("no thread", in->name);
    if (job.number) fail("not accepted", in->name);
    size_t low = 0;
    while (stack[low] == PAINT) low++;
    return (size_t)(job.top - (const uint8_t *)(stack + low));
}

static void assert_depth(const Way *way) {
    Input deeper = nested(way, LEVELS + 1);
    if (assert_equal(&deeper, ROW * deeper.length).number != 14) fail("one level more is not refusal 14", way->name);
    Input in = nested(way, LEVELS);
    if (assert_equal(&in, ROW * in.length).number != 0) fail("64 levels are refused", way->name);
}

int main(void) {
    size_t most[READERS][2] = {{0}};
    for (int w = 0; w < WAYS; w++) {
        assert_depth(&ways[w]);
        Input in = nested(&ways[w], LEVELS);
        printf("%s", ways[w].name);
        for (int i = 0; i < READERS; i++)
            for (int reads = 0; reads < 2; reads++) {
                size_t n = used(&readers[i], &in, reads);
                if (n > most[i][reads]) most[i][reads] = n;
                printf("\t%zu", n);
            }
        printf("\n");
    }
    printf("most");
    for (int i = 0; i < READERS; i++) printf("\t%zu\t%zu", most[i][0], most[i][1]);
    printf("\n");
    return 0;
}
