/*
 * tries.h: what must hold of one input, whatever its bytes are. A try that fails says so and aborts.
 */
#ifndef TRIES_H
#define TRIES_H

#include <stddef.h>
#include <stdint.h>

/* An input of `gatecount` and `gatesheet`: through both whole programs, the compiler and the counter. */
void try_table(const uint8_t *data, size_t size);

/* Words of 32 bits, lowest byte first: in the first the number of plan words, then these, then a list of values. */
void try_plan(const uint8_t *data, size_t size);

/* ---- What both share ---- */

#define MUST(fact) ((fact) ? (void)0 : broken(#fact, __FILE__, __LINE__))
_Noreturn void broken(const char *fact, const char *file, int line);

/* Memory between two pages that may not be touched. */
struct room {
    uint8_t *start;
    size_t size;
};

/* `size` bytes that end where the room ends, or begin where it begins: a step beyond is a fault of the processor. */
void *lend(struct room *room, size_t size, int at_start);

/* A number that depends on all the bytes. */
uint64_t hash_of(const uint8_t *data, size_t size);

/* The next of a row of numbers. */
uint64_t next_of(uint64_t *state);

/* Checking, counting and judging by the proved counter: the answers of the plain one in C. 1 where the plan passes. */
int same_answers(const int32_t *plan, size_t plan_len, const int32_t *values, size_t values_len);

/* The same on events near the words of a plan that passes, and on vertices of its polygons. */
void same_on_near_events(const int32_t *plan, size_t plan_len, uint64_t seed);

/* The plain counter: bench/src/interpreter.c under other names. */
void plain_check(const int32_t *plan, size_t plan_len, uint64_t out[2]);
void plain_judge(const int32_t *plan, size_t plan_len, const int32_t *event, size_t event_len, uint64_t out[4]);
void plain_count(const int32_t *plan, size_t plan_len, const int32_t *events, size_t events_len, uint64_t out[69]);

#endif
