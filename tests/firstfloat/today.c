/*
 * today.c: the proved counter of today under names that stay, with the lengths of its rows, for tests/firstfloat/run.
 * When a row grows and its function gets another symbol, include/gatecount.h maps the name used here to it.
 */
#include <gatecount.h> /* that of include/, not the first float's beside this file */

const uint64_t today_count_out = GATE_COUNT_OUT;
const uint64_t today_judge_out = GATE_JUDGE_OUT;

void today_check(const int32_t *plan, size_t plan_len, uint64_t *out)
{
    gate_check(plan, plan_len, out);
}

void today_count(const int32_t *plan, size_t plan_len, const int32_t *events, size_t events_len, uint64_t *out)
{
    gate_count(plan, plan_len, events, events_len, out);
}

void today_judge(const int32_t *plan, size_t plan_len, const int32_t *event, size_t event_len, uint64_t *out)
{
    gate_judge(plan, plan_len, event, event_len, out);
}
