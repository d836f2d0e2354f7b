/*
 * gatecount.h: checks a gate plan, judges one event by it and counts the members of its regions.
 *
 * Link with libgatec.a (gate_check, gate_count) and, where events are judged one by one, libgatejudge.a (gate_judge);
 * `tools/build gatec` and `tools/build gatejudge` write them to target/staticlib.
 *
 * A plan is a list of signed 32-bit words that the compiler of gate tables writes:
 *
 *     n                 values of an event, 1 to 8
 *     steps             number of steps and of regions, 0 to 64
 *     then each step:   kind, region, parent region (-1 for none), body length, body
 *
 *     kind              body                                                body length
 *     1 box             dimension, min, max; for each dimension             3 to 24, by threes
 *     2 polygon         two dimensions, x and y of each vertex              8 to 514, even
 *     3 ellipse         two dimensions, two means, c11, c12, c22, D^2       8
 *     4 and, 5 or       2 * region, plus 1 for the events not in it         2 to 63
 *     6 not             likewise                                            1
 *     7 decimal ellipse as 3, with c11, c12, c22, D^2 in thousandths        8
 *     8 ellipsoid       three dimensions, three means,                      13
 *                       c11, c12, c13, c22, c23, c33, D^2
 *
 * An event is n values. It is taken when each is from -65,536 to 65,535, else it is spoilt and a member of no region.
 *
 * For every function below:
 * - A list is lent as a pointer to its first word and its number of words. Pointers are aligned and not null, also
 *   where the length is 0; `out` shares no memory with a list.
 * - Every plan and list is safe to pass: the plan is checked first in each call, and what is refused is told in `out`.
 * - The lists are only read. Nothing is kept when a call returns, and there is no state between calls: a call may run
 *   in any thread, at the same time as others, and may be interrupted by others, each with its own `out`.
 * - `out` is written whole in each call, whatever it held before.
 * - Use of stack and heap: see the documentation of the repository.
 */
#ifndef GATECOUNT_H
#define GATECOUNT_H

#include <stddef.h>
#include <stdint.h>

#ifdef __cplusplus
extern "C" {
#endif

#define GATE_MAX_WORDS 4096 /* words of the longest plan */
#define GATE_REGIONS 64     /* counts of a tally, bits of each set of a judgement */
#define GATE_NO_PARENT (-1) /* the parent of a step that has none */

/* The refusals, in the order in which they are tested; the place that goes with each. */
enum gate_refusal {
    GATE_PASSES = 0,          /* not refused; place 0 */
    GATE_LONG_PLAN = 21,      /* over GATE_MAX_WORDS words; place 0 */
    GATE_MALFORMED_PLAN = 22, /* place: index of the lowest bad word, or the plan's length where its words run out */
    GATE_RAGGED = 23,         /* the list is no multiple of n long, or the one event not n; place: its length */
    GATE_SPOILT = 24          /* judging only: the event is spoilt; place: index of its first bad value */
};

/* The kinds of step. */
enum gate_kind {
    GATE_BOX = 1,
    GATE_POLYGON = 2,
    GATE_ELLIPSE = 3,
    GATE_AND = 4,
    GATE_OR = 5,
    GATE_NOT = 6,
    GATE_DECIMAL_ELLIPSE = 7,
    GATE_ELLIPSOID = 8
};

/* What stands where in `out`, and the lengths of `out`. */
enum gate_out {
    GATE_OUT_REFUSAL = 0, /* all three functions: an enum gate_refusal */
    GATE_OUT_PLACE = 1,   /* all three functions */
    GATE_CHECK_OUT = 2,

    GATE_OUT_BITS = 2,    /* gate_judge: bit r is set when the event is a member of region r */
    GATE_OUT_OUTLINE = 3, /* gate_judge: bit r is set when it is a member and on the outline of the region's own shape */
    GATE_JUDGE_OUT = 4,

    GATE_OUT_TAKEN = 2,        /* gate_count: number of events taken */
    GATE_OUT_SPOILT_COUNT = 3, /* gate_count: number of events spoilt */
    GATE_OUT_COUNTS = 4,       /* gate_count: from here on the members of regions 0 to 63 */
    GATE_OUT_UNCLAIMED = 68,   /* gate_count: number of events taken that are members of no region */
    GATE_COUNT_OUT = 69
};

/* Checks a plan: refusal (21, 22) and place. */
void gate_check(const int32_t *plan, size_t plan_len, uint64_t out[2]);

/*
 * When a row of `out` grows, at its end, the function gets a new symbol with the row's length in its name, and the name
 * used here is mapped to it. An object built with an earlier header, whose row is shorter, then fails to link and never
 * has numbers written past its row. Callers in other languages name the symbol itself.
 */
#define gate_judge gate_judge_row4
#define gate_count gate_count_row69

/*
 * Judges one event: refusal (21 to 24), place, bits, outline bits. A refused judging sets no bit of either set.
 * An outline bit is set when the event is a member of the region and on the outline of the region's own shape: on some
 * edge of its polygon, wherever that edge lies, or on the rim of its ellipse or ellipsoid, where both sides of the rule
 * are equal.
 * Boxes and combinations have no outline. An event outside the parent is no member, so neither of its bits is set.
 */
void gate_judge(const int32_t *plan, size_t plan_len, const int32_t *event, size_t event_len, uint64_t out[4]);

/*
 * Counts a flat list of events, n values each: refusal (21 to 23), place, taken, spoilt, 64 counts, unclaimed.
 * Counts from the step count on are 0. In a refused count taken, spoilt, all counts and unclaimed are 0.
 * Unclaimed is how many of the events taken are members of no region: all of them where the plan has no step. Spoilt
 * events are not among them.
 */
void gate_count(const int32_t *plan, size_t plan_len, const int32_t *events, size_t events_len, uint64_t out[69]);

/* ---- The same by named fields ---- */

/* The answer of a check. */
struct gate_answer {
    enum gate_refusal refusal;
    size_t place;
};

/* The answer of a judging. */
struct gate_judgement {
    struct gate_answer answer;
    uint64_t bits;
    uint64_t outline; /* of the regions in bits those whose outline the event is on */
};

/* The answer of a count. */
struct gate_tally {
    struct gate_answer answer;
    uint64_t taken;
    uint64_t spoilt;
    uint64_t counts[GATE_REGIONS];
    uint64_t unclaimed; /* of the events taken those that are members of no region */
};

static inline struct gate_answer gate_answer_of(const uint64_t *out) {
    struct gate_answer answer;
    answer.refusal = (enum gate_refusal)out[GATE_OUT_REFUSAL];
    answer.place = (size_t)out[GATE_OUT_PLACE];
    return answer;
}

/* gate_check with a struct as its answer. */
static inline struct gate_answer gate_check_plan(const int32_t *plan, size_t plan_len) {
    uint64_t out[GATE_CHECK_OUT];
    gate_check(plan, plan_len, out);
    return gate_answer_of(out);
}

/* gate_judge with a struct as its answer. */
static inline struct gate_judgement gate_judge_event(const int32_t *plan, size_t plan_len,
                                                     const int32_t *event, size_t event_len) {
    uint64_t out[GATE_JUDGE_OUT];
    struct gate_judgement judgement;
    gate_judge(plan, plan_len, event, event_len, out);
    judgement.answer = gate_answer_of(out);
    judgement.bits = out[GATE_OUT_BITS];
    judgement.outline = out[GATE_OUT_OUTLINE];
    return judgement;
}

/* gate_count into a struct; takes 552 bytes of stack more than gate_count. */
static inline void gate_count_events(const int32_t *plan, size_t plan_len,
                                     const int32_t *events, size_t events_len, struct gate_tally *tally) {
    uint64_t out[GATE_COUNT_OUT];
    int region;
    gate_count(plan, plan_len, events, events_len, out);
    tally->answer = gate_answer_of(out);
    tally->taken = out[GATE_OUT_TAKEN];
    tally->spoilt = out[GATE_OUT_SPOILT_COUNT];
    for (region = 0; region < GATE_REGIONS; region++) {
        tally->counts[region] = out[GATE_OUT_COUNTS + region];
    }
    tally->unclaimed = out[GATE_OUT_UNCLAIMED];
}

/* 1 when the bits of a judgement have the region, from 0 to 63, else 0. */
static inline int gate_is_member(uint64_t bits, int region) {
    return (int)(bits >> region & 1u);
}

/* 1 when the outline bits of a judgement have the region, from 0 to 63, else 0. */
static inline int gate_is_on_outline(uint64_t outline, int region) {
    return gate_is_member(outline, region);
}

#ifdef __cplusplus
}
#endif

#endif
