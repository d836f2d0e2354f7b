/*
 * joined.c: counts random lists whole and in two parts, cut behind every event, and compares the row of the whole with the
 * sum of the parts' rows, number for number; cut within an event, both parts must be refused, with zeros. Judges their
 * events one by one: unclaimed must be those without a bit. A list with all its cuts is one test.
 * Prints 'N passed, M failed'; the exit status is 1 when one failed.
 */
#include "gatecount.h"
#include "plans.h"

#include <inttypes.h>
#include <stdio.h>
#include <string.h>

enum { LISTS = 600, MAX_EVENTS = 200, MAX_N = 8 };

static int passed, failed;

static void expect(int good, const char *what, int list) {
    if (good) {
        passed++;
    } else {
        failed++;
        printf("failed: %s, list %d\n", what, list);
    }
}

/* Adds the row of a count to a sum of rows; 0, and nothing is added, where the count was refused. */
static int add_row(uint64_t sum[GATE_COUNT_OUT], const uint64_t row[GATE_COUNT_OUT]) {
    if (row[GATE_OUT_REFUSAL] != GATE_PASSES) return 0;
    for (int i = GATE_OUT_TAKEN; i < GATE_COUNT_OUT; i++) sum[i] += row[i];
    return 1;
}

/* Whether a count was refused as ragged: the number, the length as its place, and zeros. */
static int is_ragged(const uint64_t row[GATE_COUNT_OUT], size_t len) {
    int zeros = 1;
    for (int i = GATE_OUT_TAKEN; i < GATE_COUNT_OUT; i++) zeros = zeros && row[i] == 0;
    return zeros && row[GATE_OUT_REFUSAL] == GATE_RAGGED && row[GATE_OUT_PLACE] == len;
}

/* The rows of the first `cut` values and of those behind them. */
static void count_parts(const struct plan *plan, const int32_t *values, size_t len, size_t cut,
                        uint64_t first[GATE_COUNT_OUT], uint64_t second[GATE_COUNT_OUT]) {
    gate_count(plan->words, plan->len, values, cut, first);
    gate_count(plan->words, plan->len, values + cut, len - cut, second);
}

/* Whether the row of the whole list is the sum of the parts' rows, wherever it is cut behind an event. */
static int adds_up(const struct plan *plan, const int32_t *values, size_t len, const uint64_t whole[GATE_COUNT_OUT]) {
    size_t n = (size_t)plan->words[0];
    for (size_t cut = 0; cut <= len; cut += n) {
        uint64_t sum[GATE_COUNT_OUT] = {0}, first[GATE_COUNT_OUT], second[GATE_COUNT_OUT];
        count_parts(plan, values, len, cut, first, second);
        if (!add_row(sum, first) || !add_row(sum, second) || memcmp(sum, whole, sizeof sum) != 0) return 0;
    }
    return 1;
}

/* Whether both parts are refused, wherever the list is cut within an event. */
static int refuses_cut_events(const struct plan *plan, const int32_t *values, size_t len) {
    size_t n = (size_t)plan->words[0];
    for (size_t cut = 0; cut < len; cut++) {
        uint64_t first[GATE_COUNT_OUT], second[GATE_COUNT_OUT];
        if (cut % n == 0) continue;
        count_parts(plan, values, len, cut, first, second);
        if (!is_ragged(first, cut) || !is_ragged(second, len - cut)) return 0;
    }
    return 1;
}

/* How many of the events are in no region, judged one by one. */
static uint64_t judged_unclaimed(const struct plan *plan, const int32_t *values, size_t len) {
    size_t n = (size_t)plan->words[0];
    uint64_t unclaimed = 0;
    for (size_t at = 0; at < len; at += n) {
        uint64_t row[GATE_JUDGE_OUT];
        gate_judge(plan->words, plan->len, values + at, n, row);
        unclaimed += row[GATE_OUT_REFUSAL] == GATE_PASSES && row[GATE_OUT_BITS] == 0;
    }
    return unclaimed;
}

int main(void) {
    static struct plan plan;
    static int32_t values[MAX_EVENTS * MAX_N];
    struct random random = seeded(20261117);
    uint64_t taken = 0, spoilt = 0, members = 0, unclaimed = 0, cuts = 0;
    for (int list = 0; list < LISTS; list++) {
        uint64_t whole[GATE_COUNT_OUT];
        random_plan(&random, &plan);
        /* The counter takes 64 events at a time: one list of eight may have more than that, up to four such groups. */
        size_t events = below(&random, list % 8 == 7 ? MAX_EVENTS + 1 : 40), n = (size_t)plan.words[0];
        for (size_t i = 0; i < events; i++) random_event(&random, &plan, values + i * n);
        gate_count(plan.words, plan.len, values, events * n, whole);
        expect(whole[GATE_OUT_REFUSAL] == GATE_PASSES && adds_up(&plan, values, events * n, whole), "the sum of two parts", list);
        expect(whole[GATE_OUT_TAKEN] + whole[GATE_OUT_SPOILT_COUNT] == events, "taken and spoilt are all events", list);
        expect(whole[GATE_OUT_UNCLAIMED] == judged_unclaimed(&plan, values, events * n), "unclaimed are those judged to be in no region", list);
        expect(refuses_cut_events(&plan, values, events * n), "cut within an event", list);
        taken += whole[GATE_OUT_TAKEN];
        spoilt += whole[GATE_OUT_SPOILT_COUNT];
        for (int i = GATE_OUT_COUNTS; i < GATE_OUT_COUNTS + GATE_REGIONS; i++) members += whole[i];
        unclaimed += whole[GATE_OUT_UNCLAIMED];
        cuts += events + 1;
    }
    printf("%" PRIu64 " cuts; %" PRIu64 " events taken, %" PRIu64 " spoilt, %" PRIu64 " members, %" PRIu64 " unclaimed\n",
           cuts, taken, spoilt, members, unclaimed);
    expect(taken > 0 && spoilt > 0 && members > 0, "events taken, spoilt ones and members are met", LISTS);
    expect(0 < unclaimed && unclaimed < taken, "events taken that are in no region, and others, are met", LISTS);
    printf("%d passed, %d failed\n", passed, failed);
    return failed != 0;
}
