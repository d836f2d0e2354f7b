/*
 * faulty.c: the proved compiler, the proved judging and counting and the program `gatesheet`, one of them with something added:
 * tests/fuzz/check links them in the place of these, to see that the harness sees each FAULT.
 */
#include <sys/types.h>

#include "gatecompile.h"
#include "gatecount.h"

void __real_gate_compile(const uint8_t *table, size_t table_len, int32_t *plan, size_t plan_len, uint64_t out[4]);
void __wrap_gate_compile(const uint8_t *table, size_t table_len, int32_t *plan, size_t plan_len, uint64_t out[4]);

void __wrap_gate_compile(const uint8_t *table, size_t table_len, int32_t *plan, size_t plan_len, uint64_t out[4])
{
    __real_gate_compile(table, table_len, plan, plan_len, out);
    int refused = out[GATE_COMPILE_REFUSAL] != 0;
    size_t words = (size_t)out[GATE_COMPILE_WORDS];
    switch (FAULT) {
    case 1: /* a refused compile writes a word */
        if (refused && plan_len > 0)
            plan[0] = 1;
        break;
    case 2: /* an accepted one writes a word more */
        if (!refused && words < plan_len)
            plan[words] = 0;
        break;
    case 3: /* it writes behind the slice */
        if (!refused)
            *(volatile int32_t *)&plan[plan_len] = 0;
        break;
    case 4: /* it reads behind the table */
        (void)*(volatile const uint8_t *)&table[table_len];
        break;
    case 5: /* it reports too many regions */
        out[GATE_COMPILE_REGIONS] += !refused;
        break;
    case 6: /* it reports too few words */
        out[GATE_COMPILE_WORDS] -= !refused;
        break;
    case 7: /* a refused compile reports words */
        out[GATE_COMPILE_WORDS] += (uint64_t)refused;
        break;
    case 8: /* the refusal has another place */
        out[GATE_COMPILE_PLACE] += (uint64_t)refused;
        break;
    case 9: /* the first box ends one later */
        if (!refused && words > 8 && plan[2] == 1)
            plan[8]++;
    }
}

void __real_gate_judge_row4(const int32_t *plan, size_t plan_len, const int32_t *event, size_t event_len, uint64_t out[4]);
void __wrap_gate_judge_row4(const int32_t *plan, size_t plan_len, const int32_t *event, size_t event_len, uint64_t out[4]);

void __wrap_gate_judge_row4(const int32_t *plan, size_t plan_len, const int32_t *event, size_t event_len, uint64_t out[4])
{
    uint64_t before = out[GATE_OUT_OUTLINE];
    __real_gate_judge_row4(plan, plan_len, event, event_len, out);
    switch (FAULT) {
    case 10: /* it leaves the outline bits as they were */
        out[GATE_OUT_OUTLINE] = before;
        break;
    case 11: /* it writes behind its row */
        *(volatile uint64_t *)&out[GATE_JUDGE_OUT] = 0;
    }
}

void __real_gate_count_row69(const int32_t *plan, size_t plan_len, const int32_t *events, size_t events_len, uint64_t out[69]);
void __wrap_gate_count_row69(const int32_t *plan, size_t plan_len, const int32_t *events, size_t events_len, uint64_t out[69]);

void __wrap_gate_count_row69(const int32_t *plan, size_t plan_len, const int32_t *events, size_t events_len, uint64_t out[69])
{
    uint64_t before = out[GATE_OUT_UNCLAIMED];
    __real_gate_count_row69(plan, plan_len, events, events_len, out);
    switch (FAULT) {
    case 17: /* a refused count leaves the number of unclaimed events as it was */
        if (out[GATE_OUT_REFUSAL] != GATE_PASSES)
            out[GATE_OUT_UNCLAIMED] = before;
        break;
    case 18: /* spoilt events are unclaimed too */
        out[GATE_OUT_UNCLAIMED] += out[GATE_OUT_SPOILT_COUNT];
        break;
    case 19: /* it writes behind its row */
        *(volatile uint64_t *)&out[GATE_COUNT_OUT] = 0;
    }
}

int __real_gatesheet_main(int argc, char **argv);
int __wrap_gatesheet_main(int argc, char **argv);
ssize_t __real_given_read(int fd, void *into, size_t room);
ssize_t __wrap_given_read(int fd, void *into, size_t room);
ssize_t __real_printed_write(int fd, const void *from, size_t length);
ssize_t __wrap_printed_write(int fd, const void *from, size_t length);

static int in_sheet;

int __wrap_gatesheet_main(int argc, char **argv)
{
    in_sheet = 1;
    int status = __real_gatesheet_main(argc, argv);
    in_sheet = 0;
    if (FAULT == 12) /* it prints a byte more */
        __real_printed_write(1, "", 1);
    if (FAULT == 13) /* it ends as if it had failed */
        return 1;
    return FAULT == 20 ? 0 : status; /* it ends as if nothing had failed */
}

/* It takes a read that fails as the end of the input. */
ssize_t __wrap_given_read(int fd, void *into, size_t room)
{
    ssize_t length = __real_given_read(fd, into, room);
    return FAULT == 14 && in_sheet && length < 0 ? 0 : length;
}

ssize_t __wrap_printed_write(int fd, const void *from, size_t length)
{
    if (FAULT == 15 && in_sheet && fd == 2) /* it tells nothing */
        return (ssize_t)length;
    ssize_t written = __real_printed_write(fd, from, length);
    /* It takes a part that was written as the whole. */
    return FAULT == 16 && in_sheet && written >= 0 ? (ssize_t)length : written;
}
