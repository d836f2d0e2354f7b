/*
 * row.c: judges one event and counts it, each where the program is built with JUDGE or COUNT. With EARLIER it does so as
 * programs did that were built with an earlier gatecount.h, where the row of gate_judge had three numbers and that of
 * gate_count 68: tests/c/run sees that it does not link then.
 */
#ifdef EARLIER
#include <stddef.h>
#include <stdint.h>

enum { GATE_JUDGE_OUT = 3, GATE_COUNT_OUT = 68 };
void gate_judge(const int32_t *plan, size_t plan_len, const int32_t *event, size_t event_len, uint64_t out[3]);
void gate_count(const int32_t *plan, size_t plan_len, const int32_t *events, size_t events_len, uint64_t out[68]);
#else
#include "gatecount.h"
#endif

int main(void) {
    static const int32_t plan[] = {1, 0}, event[] = {0};
    uint64_t out[GATE_COUNT_OUT] = {0};
    int refused = 0;
#ifdef JUDGE
    gate_judge(plan, 2, event, 1, out);
    refused |= out[0] != 0;
#endif
#ifdef COUNT
    gate_count(plan, 2, event, 1, out);
    refused |= out[0] != 0;
#endif
    return refused;
}
