/*
 * plans.c: answers the questions of tests/compare.py with the proved counter and compiler.
 * The protocol stands at the top of that file.
 */
#include <inttypes.h>
#include <stdio.h>
#include <string.h>

#include "gatecompile.h"
#include "gatecount.h"

enum { MOST = 5000 };

static int32_t plan[MOST];
static int32_t values[MOST];

/* Reads a length and as many words; the length, or -1 where the line is not so. */
static long list(int32_t *into)
{
    long length;
    if (scanf("%ld", &length) != 1 || length < 0 || length > MOST)
        return -1;
    for (long i = 0; i < length; i++)
        if (scanf("%" SCNd32, &into[i]) != 1)
            return -1;
    return length;
}

/* A space and the bits, region 0 first. */
static void print_bits(uint64_t bits)
{
    putchar(' ');
    for (int r = 0; r < GATE_REGIONS; r++)
        putchar(bits >> r & 1 ? '1' : '0');
}

/* The question `compile`: 1 where its line is good. */
static int compile(void)
{
    enum { SLICE = 9000, BYTES = 50000, UNTOUCHED = 2100000000 };
    static int32_t slice[SLICE];
    static uint8_t table[BYTES];
    static char digits[2 * BYTES + 1];
    long room;
    size_t length = 0;
    if (scanf("%ld %100000s", &room, digits) != 2 || room < 0 || room > SLICE)
        return 0;
    if (strcmp(digits, "-") != 0)
        for (; digits[2 * length]; length++) {
            unsigned byte;
            if (sscanf(&digits[2 * length], "%2x", &byte) != 1)
                return 0;
            table[length] = (uint8_t)byte;
        }
    for (long i = 0; i < SLICE; i++)
        slice[i] = UNTOUCHED;
    uint64_t out[GATE_COMPILE_OUT];
    gate_compile(table, length, slice, (size_t)room, out);
    size_t words = (size_t)out[GATE_COMPILE_WORDS], beyond = 0;
    for (size_t i = words; i < SLICE; i++)
        beyond += slice[i] != UNTOUCHED;
    printf("%" PRIu64 " %" PRIu64 " %" PRIu64 " %" PRIu64 " %zu", out[0], out[1], out[2], out[3], beyond);
    for (size_t i = 0; i < words; i++)
        printf(" %" PRId32, slice[i]);
    putchar('\n');
    return 1;
}

int main(void)
{
    char word[16];
    while (scanf("%15s", word) == 1) {
        if (strcmp(word, "compile") == 0) {
            if (!compile())
                return 1;
            continue;
        }
        long words = list(plan);
        if (words < 0)
            return 1;
        if (strcmp(word, "check") == 0) {
            uint64_t out[2];
            gate_check(plan, (size_t)words, out);
            printf("%" PRIu64 " %" PRIu64 "\n", out[0], out[1]);
            continue;
        }
        long length = list(values);
        if (length < 0)
            return 1;
        if (strcmp(word, "judge") == 0) {
            uint64_t out[GATE_JUDGE_OUT];
            gate_judge(plan, (size_t)words, values, (size_t)length, out);
            printf("%" PRIu64 " %" PRIu64, out[0], out[1]);
            print_bits(out[GATE_OUT_BITS]);
            print_bits(out[GATE_OUT_OUTLINE]);
            putchar('\n');
        } else if (strcmp(word, "count") == 0) {
            uint64_t out[GATE_COUNT_OUT];
            gate_count(plan, (size_t)words, values, (size_t)length, out);
            for (int i = 0; i < GATE_COUNT_OUT; i++)
                printf(i ? " %" PRIu64 : "%" PRIu64, out[i]);
            putchar('\n');
        } else {
            return 1;
        }
    }
    return 0;
}
