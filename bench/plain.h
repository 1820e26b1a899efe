/* The calls of the plain reader, in the port's shape. PLAIN gives them a prefix of their own, so that builds of it by two
   compilers can stand in one program. */
#ifndef LORIKVAR_BENCH_PLAIN_H
#define LORIKVAR_BENCH_PLAIN_H
#include <stddef.h>
#include <stdint.h>

#ifndef PLAIN
#define PLAIN(name) plain_##name
#endif

/* The words of a record. */
#define ROW 7

uint32_t PLAIN(check_stage)(const uint8_t *input, size_t length, size_t values[4]);
uint32_t PLAIN(check_run)(const uint8_t *input, size_t length, size_t values[4]);
uint32_t PLAIN(read_stage)(const uint8_t *input, size_t length, uint32_t *table, size_t words, size_t values[4]);
uint32_t PLAIN(read_run)(const uint8_t *input, size_t length, uint32_t *table, size_t words, size_t values[4]);
#endif
