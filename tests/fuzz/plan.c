/*
 * plan.c: words that nobody compiled, as a plan and a list of values.
 */
#include <string.h>

#include "tries.h"

enum { MOST = 16384 };

void try_plan(const uint8_t *data, size_t size)
{
    static int32_t words[MOST];
    size_t length = size / sizeof words[0];
    if (length == 0 || length > MOST)
        return;
    memcpy(words, data, length * sizeof words[0]);
    size_t rest = length - 1, plan_len = (uint16_t)words[0];
    if (plan_len > rest)
        plan_len = rest;
    const int32_t *plan = words + 1;
    if (same_answers(plan, plan_len, plan + plan_len, rest - plan_len))
        same_on_near_events(plan, plan_len, hash_of(data, size));
}
