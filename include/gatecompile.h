/*
 * gatecompile.h: compiles a gate table into a plan, ashore.
 *
 * Link with libgatecompile.a, which `tools/build gatecompile` writes to target/staticlib.
 *
 * A table is the bytes of a tab-separated text, see docs/FORMAT.md; a plan is a list of signed 32-bit words, see gatecount.h.
 *
 * - Pointers are aligned and not null, also where a length is 0; table, plan and `out` share no memory.
 * - Every table is safe to pass. What is refused is told in `out`, and then no word of `plan` is changed.
 * - A table that is accepted is written as its plan over the first words of `plan`; the words behind it are unchanged.
 *   A plan has at most 4,096 words, so that a `plan` of 4,096 words is never too short.
 * - Nothing is kept when a call returns, and there is no state between calls.
 */
#ifndef GATECOMPILE_H
#define GATECOMPILE_H

#include <stddef.h>
#include <stdint.h>

#ifdef __cplusplus
extern "C" {
#endif

/* What stands where in `out`. */
enum gate_compile_out {
    GATE_COMPILE_REFUSAL = 0, /* 0, or the number of the refusal, 1 to 18: docs/REFUSALS.md */
    GATE_COMPILE_PLACE = 1,   /* its place: a line from 1, or 0 */
    GATE_COMPILE_WORDS = 2,   /* words written, 0 where the table is refused */
    GATE_COMPILE_REGIONS = 3, /* regions written, 0 where the table is refused */
    GATE_COMPILE_OUT = 4
};

/* Compiles a table of table_len bytes into a plan with room for plan_len words: refusal, place, words, regions. */
void gate_compile(const uint8_t *table, size_t table_len, int32_t *plan, size_t plan_len, uint64_t out[4]);

#ifdef __cplusplus
}
#endif

#endif
