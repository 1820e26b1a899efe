/* The readers that are held against each other: the port, and the plain reader as two compilers build it. With BEFORE
   also an older port, its calls renamed. With HERE, only the plain reader, for whatever processor the program is built
   for. With STD, Rust's standard library stands behind the readers: it has the UTF-8 pass alone. Included once in each
   program. */
#ifndef LORIKVAR_BENCH_READERS_H
#define LORIKVAR_BENCH_READERS_H
#include <stdio.h>
#include <stdlib.h>
#include <string.h>

#ifdef HERE
#include "plain.h"
#else
#include "../include/lorikvar.h"
#define PLAIN(name) gcc_##name
#include "plain.h"
#undef LORIKVAR_BENCH_PLAIN_H
#undef PLAIN
#define PLAIN(name) clang_##name
#include "plain.h"
#ifdef BEFORE
#undef LORIKVAR_BENCH_PLAIN_H
#undef PLAIN
#define PLAIN(name) before_lorikvar_##name
#include "plain.h"
#endif
#endif

typedef uint32_t Check(const uint8_t *input, size_t length, size_t values[4]);
typedef uint32_t Read(const uint8_t *input, size_t length, uint32_t *table, size_t words, size_t values[4]);

#ifndef STD
#define STD 0
#endif
#if STD
Check std_check;
#endif

typedef struct {
    const char *name;
    Check *check_stage, *check_run;
    Read *read_stage, *read_run;
} Reader;

static const Reader readers[] = {
#ifdef HERE
    {"here", plain_check_stage, plain_check_run, plain_read_stage, plain_read_run},
#else
    {"port", lorikvar_check_stage, lorikvar_check_run, lorikvar_read_stage, lorikvar_read_run},
#ifdef BEFORE
    {"before", before_lorikvar_check_stage, before_lorikvar_check_run, before_lorikvar_read_stage,
     before_lorikvar_read_run},
#endif
    {"gcc", gcc_check_stage, gcc_check_run, gcc_read_stage, gcc_read_run},
    {"clang", clang_check_stage, clang_check_run, clang_read_stage, clang_read_run},
#endif
#if STD
    {"std", NULL, std_check, NULL, NULL},
#endif
};

/* PASSES are all that have a UTF-8 pass. */
enum { PASSES = sizeof readers / sizeof *readers, READERS = PASSES - STD };
enum { INPUT_LIMIT = 1048576, TABLE_WORDS = ROW * INPUT_LIMIT };

static inline void fail(const char *why, const char *what) {
    fprintf(stderr, "%s: %s\n", why, what);
    exit(1);
}

/* The bytes of a file, into a room of INPUT_LIMIT + 1. */
static inline size_t load(const char *path, uint8_t *room) {
    FILE *file = fopen(path, "rb");
    if (!file) fail("cannot open", path);
    size_t n = fread(room, 1, INPUT_LIMIT + 1, file);
    fclose(file);
    return n;
}
#endif
