/*
 * fuzz_plan.c: libFuzzer over try_plan. Half of the changes are libFuzzer's own, of bytes; the others are of whole words.
 */
#include <string.h>

#include "tries.h"

size_t LLVMFuzzerMutate(uint8_t *data, size_t size, size_t most);

int LLVMFuzzerTestOneInput(const uint8_t *data, size_t size)
{
    try_plan(data, size);
    return 0;
}

static const int32_t WORDS[] = {
    -1, 0, 1, 2, 3, 4, 5, 6, 7, 8, 9, 13, 24, 25, 27, 62, 63, 64, 65, 127, 128, 514, 516, 65535, 65536, -65535, -65536, -65537,
    16777216, -16777216, 16777217, -16777217, 4096, 4097, 2000000000, -2000000000, 2000000001, 4096000, 4096001, INT32_MIN, INT32_MAX,
};

size_t LLVMFuzzerCustomMutator(uint8_t *data, size_t size, size_t most, unsigned seed)
{
    uint64_t state = seed;
    size_t length = size / 4, from, to, run;
    if (length < 2 || next_of(&state) % 2)
        return LLVMFuzzerMutate(data, size, most);
    for (uint64_t times = 1 + next_of(&state) % 3; times > 0; times--) {
        int32_t word;
        uint16_t plan_len;
        memcpy(&plan_len, data, 2);
        from = 1 + next_of(&state) % (length - 1);
        to = 1 + next_of(&state) % (length - 1);
        switch (next_of(&state) % 5) {
        case 0: /* a word becomes another one */
            word = WORDS[next_of(&state) % (sizeof WORDS / sizeof *WORDS)];
            memcpy(data + 4 * to, &word, 4);
            break;
        case 1:
            memcpy(data + 4 * to, data + 4 * from, 4);
            break;
        case 2: /* a word grows or shrinks by one */
            memcpy(&word, data + 4 * to, 4);
            word = (int32_t)((uint32_t)word + (next_of(&state) % 2 ? 1u : -1u));
            memcpy(data + 4 * to, &word, 4);
            break;
        case 3: /* some words more */
            run = 1 + next_of(&state) % 12;
            if (run > length - from)
                run = length - from;
            if (4 * (length + run) > most)
                break;
            memmove(data + 4 * (to + run), data + 4 * to, 4 * (length - to));
            memmove(data + 4 * to, data + 4 * from, 4 * run);
            plan_len = (uint16_t)(plan_len + run);
            memcpy(data, &plan_len, 2);
            length += run;
            break;
        default: /* some words less */
            run = 1 + next_of(&state) % 12;
            if (run > length - to)
                run = length - to;
            if (length - run < 2)
                break;
            memmove(data + 4 * to, data + 4 * (to + run), 4 * (length - to - run));
            plan_len = (uint16_t)(plan_len > run ? plan_len - run : 0);
            memcpy(data, &plan_len, 2);
            length -= run;
        }
    }
    return 4 * length;
}
