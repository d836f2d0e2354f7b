/*
 * The proved counter and compiler called from C: the worked example, one call of each kind, and the refusals with their places.
 * Prints 'N passed, M failed'; the exit status is 1 when one failed.
 */
#include "gatecompile.h"
#include "gatecount.h"

#include <inttypes.h>
#include <stdio.h>
#include <string.h>

#define LENGTH(array) (sizeof(array) / sizeof((array)[0]))

static int passed, failed;

static void expect(int good, const char *what) {
    if (good) {
        passed++;
    } else {
        failed++;
        printf("failed: %s\n", what);
    }
}

static void expect_number(uint64_t is, uint64_t should, const char *what) {
    expect(is == should, what);
    if (is != should) printf("    %" PRIu64 ", not %" PRIu64 "\n", is, should);
}

/* ---- The worked example ---- */

/*
 * dims FSC SSC
 * rect Live Ring FSC 300 600
 * ellip Ring - FSC SSC 400 200 40000 0 30625 1
 * quad Q Ring 1 FSC 1 400 Lo 0 Hi 500
 * and Both - Live !Hi
 */
enum { LIVE, RING, LO, HI, BOTH };

static const int32_t example[] = {
    2, 5,                                                          /* two values, five steps */
    GATE_ELLIPSE, RING, -1, 8, 0, 1, 400, 200, 40000, 0, 30625, 1, /* dimensions, means, c11, c12, c22, D^2 */
    GATE_BOX, LIVE, RING, 3, 0, 300, 600,                          /* dimension, min, max */
    GATE_BOX, LO, RING, 3, 0, -65536, 400,                         /* no min */
    GATE_BOX, HI, RING, 3, 0, 400, 65536,                          /* no max */
    GATE_AND, BOTH, -1, 2, 2 * LIVE, 2 * HI + 1,                   /* Live, and not Hi */
};

static const int32_t example_events[] = {600, 200, 400, 375, 599, 200, 400, 376, 350, 200, 70000, 0};

static void test_example(void) {
    static const uint64_t counts[] = {3, 4, 1, 3, 1};
    static const uint64_t bits[] = {
        1 << RING | 1 << HI,
        1 << LIVE | 1 << RING | 1 << HI,
        1 << LIVE | 1 << RING | 1 << HI,
        0,
        1 << LIVE | 1 << RING | 1 << LO | 1 << BOTH,
    };
    static const uint64_t outline[] = {1 << RING, 1 << RING, 0, 0, 0};
    struct gate_answer answer = gate_check_plan(example, LENGTH(example));
    struct gate_tally tally;

    expect_number(LENGTH(example), 41, "words of the example");
    expect_number(answer.refusal, GATE_PASSES, "example passes");
    expect_number(answer.place, 0, "place where nothing is refused");

    gate_count_events(example, LENGTH(example), example_events, LENGTH(example_events), &tally);
    expect_number(tally.answer.refusal, GATE_PASSES, "example is counted");
    expect_number(tally.answer.place, 0, "place of a count that is not refused");
    expect_number(tally.taken, 5, "taken");
    expect_number(tally.spoilt, 1, "spoilt");
    expect_number(tally.unclaimed, 1, "unclaimed: (400, 376) is in no region, (70000, 0) is spoilt");
    for (size_t i = 0; i < GATE_REGIONS; i++) {
        expect_number(tally.counts[i], i < LENGTH(counts) ? counts[i] : 0, "count of a region");
    }

    for (size_t i = 0; i < LENGTH(bits); i++) {
        struct gate_judgement judgement = gate_judge_event(example, LENGTH(example), example_events + 2 * i, 2);
        expect_number(judgement.answer.refusal, GATE_PASSES, "event is judged");
        expect_number(judgement.answer.place, 0, "place of a judging that is not refused");
        expect_number(judgement.bits, bits[i], "bits of an event");
        expect_number(judgement.outline, outline[i], "outline bits of an event");
    }
    expect(gate_is_member(bits[0], RING) && !gate_is_member(bits[0], LIVE), "members by bits");
    expect(gate_is_on_outline(outline[0], RING) && !gate_is_on_outline(outline[0], HI), "on an outline by bits");
}

/* ---- Shapes ---- */

enum position { OUTSIDE, INSIDE, ON_OUTLINE };

/* The event is no member of region 0, a member, or one on the outline. */
static void expect_event(const char *what, const int32_t *plan, size_t plan_len, const int32_t *event, size_t event_len,
                         enum position position) {
    struct gate_judgement judgement = gate_judge_event(plan, plan_len, event, event_len);
    expect_number(judgement.answer.refusal, GATE_PASSES, "event of a shape is judged");
    expect(gate_is_member(judgement.bits, 0) == (position != OUTSIDE), what);
    expect(gate_is_on_outline(judgement.outline, 0) == (position == ON_OUTLINE), what);
}

static void expect_position(const char *what, const int32_t *plan, size_t plan_len, int32_t x, int32_t y,
                            enum position position) {
    const int32_t event[] = {x, y};
    expect_event(what, plan, plan_len, event, LENGTH(event), position);
}

static void expect_position_3(const char *what, const int32_t *plan, size_t plan_len, int32_t x, int32_t y, int32_t z,
                              enum position position) {
    const int32_t event[] = {x, y, z};
    expect_event(what, plan, plan_len, event, LENGTH(event), position);
}

static void test_shapes(void) {
    static const int32_t box[] = {2, 1, GATE_BOX, 0, -1, 6, 1, -5, 5, 0, -65536, 65536};
    expect_position("min is in the box", box, LENGTH(box), 65535, -5, INSIDE);
    expect_position("max is not in the box", box, LENGTH(box), 0, 5, OUTSIDE);

    static const int32_t triangle[] = {2, 1, GATE_POLYGON, 0, -1, 8, 0, 1, 0, 0, 10, 0, 10, 10};
    expect_position("triangle holds its inside", triangle, LENGTH(triangle), 9, 5, INSIDE);
    expect_position("triangle holds its edge", triangle, LENGTH(triangle), 5, 5, ON_OUTLINE);
    expect_position("triangle holds its vertex", triangle, LENGTH(triangle), 10, 10, ON_OUTLINE);
    expect_position("triangle ends at its edge", triangle, LENGTH(triangle), 4, 5, OUTSIDE);
    expect_position("level with the base", triangle, LENGTH(triangle), -1, 0, OUTSIDE);
    expect_position("level with the top", triangle, LENGTH(triangle), 0, 10, OUTSIDE);
    expect_position("above an upright edge", triangle, LENGTH(triangle), 10, 11, OUTSIDE);

    static const int32_t widest[] = {2, 1, GATE_POLYGON, 0, -1, 8, 1, 0, -65536, -65536, -65536, 65535, 65535, -65536};
    expect_position("widest triangle holds its edge", widest, LENGTH(widest), -1, 0, ON_OUTLINE);
    expect_position("widest triangle holds its inside", widest, LENGTH(widest), -1, -1, INSIDE);
    expect_position("widest triangle ends at its edge", widest, LENGTH(widest), 0, 0, OUTSIDE);

    static const int32_t square_twice[] = {2, 1, GATE_POLYGON, 0, -1, 18, 0, 1,
                                           0, 0, 10, 0, 10, 10, 0, 10, 0, 0, 10, 0, 10, 10, 0, 10};
    expect_position("square walked twice holds its middle", square_twice, LENGTH(square_twice), 5, 5, INSIDE);
    expect_position("square walked twice holds its edge", square_twice, LENGTH(square_twice), 10, 5, ON_OUTLINE);
    expect_position("square walked twice ends at its edge", square_twice, LENGTH(square_twice), 11, 5, OUTSIDE);

    static const int32_t edge_within[] = {2, 1, GATE_POLYGON, 0, -1, 14, 0, 1, 0, 0, 12, 0, 12, 12, 0, 12, 0, 0, 6, 6};
    expect_position("edge within a square", edge_within, LENGTH(edge_within), 3, 3, ON_OUTLINE);
    expect_position("beside an edge within a square", edge_within, LENGTH(edge_within), 3, 4, INSIDE);
    expect_position("behind an edge within a square", edge_within, LENGTH(edge_within), 7, 7, INSIDE);

    static const int32_t flat[] = {2, 1, GATE_POLYGON, 0, -1, 8, 0, 1, 0, 0, 4, 0, 8, 0};
    expect_position("flat triangle holds its edge", flat, LENGTH(flat), 4, 0, ON_OUTLINE);
    expect_position("flat triangle holds nothing else", flat, LENGTH(flat), 4, 1, OUTSIDE);
    expect_position("flat triangle ends", flat, LENGTH(flat), 9, 0, OUTSIDE);

    static const int32_t ellipse[] = {2, 1, GATE_ELLIPSE, 0, -1, 8, 0, 1, 0, 0, 5, 6, 9, 1};
    expect_position("ellipse holds its mean", ellipse, LENGTH(ellipse), 0, 0, INSIDE);
    expect_position("ellipse holds its rim", ellipse, LENGTH(ellipse), 2, 3, ON_OUTLINE);
    expect_position("ellipse ends at its rim", ellipse, LENGTH(ellipse), 3, 2, OUTSIDE);

    static const int32_t wide[] = {2, 1, GATE_ELLIPSE, 0, -1, 8, 0, 1, -65536, 0, 16777216, 0, 16777216, 256};
    expect_position("wide ellipse holds its rim", wide, LENGTH(wide), 0, 0, ON_OUTLINE);
    expect_position("wide ellipse holds what is next to its rim", wide, LENGTH(wide), -1, 0, INSIDE);
    expect_position("wide ellipse ends at its rim", wide, LENGTH(wide), 0, 1, OUTSIDE);

    static const int32_t wider[] = {2, 1, GATE_ELLIPSE, 0, -1, 8, 0, 1, -65536, -65536, 16777216, 0, 16777216, 1225};
    expect_position("wider ellipse holds its rim", wider, LENGTH(wider), 20480, 49152, ON_OUTLINE);
    expect_position("wider ellipse holds what is next to its rim", wider, LENGTH(wider), 20479, 49152, INSIDE);
    expect_position("wider ellipse ends at its rim", wider, LENGTH(wider), 20480, 49153, OUTSIDE);

    static const int32_t level[] = {2, 1, GATE_ELLIPSE, 0, -1, 8, 0, 1, 0, 0, 3000000, 0, 2000000, 1000};
    expect_position("level ellipse holds what is just inside its rim", level, LENGTH(level), 54772, 0, INSIDE);
    expect_position("level ellipse does not hold what is just outside", level, LENGTH(level), 54773, 0, OUTSIDE);

    static const int32_t decimal[] = {2, 1, GATE_DECIMAL_ELLIPSE, 0, -1, 8, 0, 1, 0, 0, 125, 150, 225, 200000};
    expect_position("decimal ellipse holds its mean", decimal, LENGTH(decimal), 0, 0, INSIDE);
    expect_position("decimal ellipse holds its rim", decimal, LENGTH(decimal), 5, 6, ON_OUTLINE);
    expect_position("decimal ellipse holds its rim above the mean", decimal, LENGTH(decimal), 0, 3, ON_OUTLINE);
    expect_position("decimal ellipse holds what is next to its rim", decimal, LENGTH(decimal), 4, 5, INSIDE);
    expect_position("decimal ellipse ends at its rim", decimal, LENGTH(decimal), 6, 6, OUTSIDE);

    static const int32_t wide_decimal[] = {2, 1, GATE_DECIMAL_ELLIPSE, 0, -1, 8, 0, 1, -65536, -65536,
                                           2000000000, 0, 2000000000, 2048000};
    expect_position("wide decimal ellipse holds its rim", wide_decimal, LENGTH(wide_decimal), -27136, -14336, ON_OUTLINE);
    expect_position("wide decimal ellipse holds what is next to its rim", wide_decimal, LENGTH(wide_decimal), -27137, -14336, INSIDE);
    expect_position("wide decimal ellipse ends at its rim", wide_decimal, LENGTH(wide_decimal), -27136, -14335, OUTSIDE);
    expect_position("wide decimal ellipse, farthest event", wide_decimal, LENGTH(wide_decimal), 65535, 65535, OUTSIDE);

    static const int32_t flat_decimal[] = {2, 1, GATE_DECIMAL_ELLIPSE, 0, -1, 8, 0, 1, -65536, -65536,
                                           2000000000, 1999999999, 2000000000, 4096000};
    expect_position("flat decimal ellipse holds its end", flat_decimal, LENGTH(flat_decimal), 24973, 24973, INSIDE);
    expect_position("flat decimal ellipse ends", flat_decimal, LENGTH(flat_decimal), 24974, 24974, OUTSIDE);
    expect_position("flat decimal ellipse holds what is beside its axis", flat_decimal, LENGTH(flat_decimal), 14464, 14465, INSIDE);
    expect_position("flat decimal ellipse is narrower at its end", flat_decimal, LENGTH(flat_decimal), 24464, 24465, OUTSIDE);

    static const int32_t either[] = {2, 3, GATE_BOX, 1, -1, 3, 0, 0, 10, GATE_BOX, 2, -1, 3, 1, 0, 10,
                                     GATE_OR, 0, -1, 2, 2 * 1, 2 * 2 + 1};
    expect_position("or by its first operand", either, LENGTH(either), 5, 5, INSIDE);
    expect_position("or by its second operand", either, LENGTH(either), 50, 50, INSIDE);
    expect_position("or by none", either, LENGTH(either), 50, 5, OUTSIDE);

    static const int32_t other[] = {2, 2, GATE_BOX, 1, -1, 3, 0, 0, 10, GATE_NOT, 0, -1, 1, 2 * 1};
    expect_position("not: outside", other, LENGTH(other), 10, 5, INSIDE);
    expect_position("not: inside", other, LENGTH(other), 9, 5, OUTSIDE);
}

static void test_ellipsoids(void) {
    static const int32_t tilted[] = {3, 1, GATE_ELLIPSOID, 0, -1, 13, 0, 1, 2, 0, 0, 0, 4, 2, -2, 5, 1, 3, 9};
    expect_position_3("ellipsoid holds its mean", tilted, LENGTH(tilted), 0, 0, 0, INSIDE);
    expect_position_3("ellipsoid holds its rim", tilted, LENGTH(tilted), 2, 5, 3, ON_OUTLINE);
    expect_position_3("ellipsoid holds its rim opposite", tilted, LENGTH(tilted), -2, -5, -3, ON_OUTLINE);
    expect_position_3("ellipsoid holds its rim at the greatest x", tilted, LENGTH(tilted), 6, 3, -3, ON_OUTLINE);
    expect_position_3("ellipsoid holds its rim beside the mean in x", tilted, LENGTH(tilted), 0, 6, 3, ON_OUTLINE);
    expect_position_3("ellipsoid holds its rim in z alone", tilted, LENGTH(tilted), 0, 0, 3, ON_OUTLINE);
    expect_position_3("ellipsoid holds what is next to its rim", tilted, LENGTH(tilted), 2, 5, 2, INSIDE);
    expect_position_3("ellipsoid ends at its rim", tilted, LENGTH(tilted), 2, 5, 4, OUTSIDE);
    expect_position_3("ellipsoid does not hold its rim with y and z changed over", tilted, LENGTH(tilted), 2, 3, 5, OUTSIDE);

    /* The same over values 3, 0 and 2 of four, around (10, -20, 30). */
    static const int32_t of_four[] = {4, 1, GATE_ELLIPSOID, 0, -1, 13, 3, 0, 2, 10, -20, 30, 4, 2, -2, 5, 1, 3, 9};
    static const int32_t on_rim[] = {-15, -65536, 33, 12}, beyond[] = {-15, 0, 34, 12}, within[] = {-15, 65535, 32, 12};
    expect_event("ellipsoid over three of four values holds its rim", of_four, LENGTH(of_four), on_rim, 4, ON_OUTLINE);
    expect_event("ellipsoid over three of four values ends at its rim", of_four, LENGTH(of_four), beyond, 4, OUTSIDE);
    expect_event("ellipsoid over three of four values holds its inside", of_four, LENGTH(of_four), within, 4, INSIDE);

    static const int32_t wide[] = {3, 1, GATE_ELLIPSOID, 0, -1, 13, 0, 1, 2, -65536, -65536, -65536,
                                   16777216, 0, 0, 16777216, 0, 16777216, 2883};
    expect_position_3("wide ellipsoid holds its rim", wide, LENGTH(wide), 61440, 61440, 61440, ON_OUTLINE);
    expect_position_3("wide ellipsoid holds what is next to its rim", wide, LENGTH(wide), 61439, 61440, 61440, INSIDE);
    expect_position_3("wide ellipsoid ends at its rim", wide, LENGTH(wide), 61440, 61440, 61441, OUTSIDE);
    expect_position_3("wide ellipsoid, farthest event", wide, LENGTH(wide), 65535, 65535, 65535, OUTSIDE);

    /* Its left side at the farthest event is the greatest that there is. */
    static const int32_t flat[] = {3, 1, GATE_ELLIPSOID, 0, -1, 13, 0, 1, 2, -65536, -65536, -65536,
                                   16777216, -8388607, -8388607, 16777216, -8388607, 16777216, 4056};
    expect_position_3("flat ellipsoid holds its rim", flat, LENGTH(flat), -65484, -65484, -65484, ON_OUTLINE);
    expect_position_3("flat ellipsoid ends at its rim", flat, LENGTH(flat), -65483, -65483, -65483, OUTSIDE);
    expect_position_3("flat ellipsoid holds what is next to its rim", flat, LENGTH(flat), -65485, -65485, -65485, INSIDE);
    expect_position_3("flat ellipsoid, farthest event", flat, LENGTH(flat), 65535, 65535, 65535, OUTSIDE);

    static const int32_t narrow[] = {3, 1, GATE_ELLIPSOID, 0, -1, 13, 0, 1, 2, -65536, -65536, -65536,
                                     16777216, 16777215, 16777215, 16777216, 16777215, 16777216, 1024};
    expect_position_3("narrow ellipsoid holds the farthest event", narrow, LENGTH(narrow), 65535, 65535, 65535, INSIDE);
    expect_position_3("narrow ellipsoid ends beside its axis", narrow, LENGTH(narrow), 65535, 65535, 65534, OUTSIDE);
}

/* A square, a disc within it by its parent, and regions without an outline that refer to the two. */
static void test_outlines(void) {
    enum { SQUARE, DISC, STRIP, CUT, UNION, SAME };
    static const int32_t plan[] = {
        2, 6,
        GATE_POLYGON, SQUARE, -1, 10, 0, 1, 0, 0, 10, 0, 10, 10, 0, 10,
        GATE_ELLIPSE, DISC, SQUARE, 8, 0, 1, 5, 0, 1, 0, 1, 25, /* of radius 5 around (5, 0) */
        GATE_BOX, STRIP, SQUARE, 3, 0, 0, 11,
        GATE_AND, CUT, -1, 2, 2 * SQUARE, 2 * DISC,
        GATE_OR, UNION, DISC, 2, 2 * SQUARE, 2 * DISC,
        GATE_NOT, SAME, -1, 1, 2 * SQUARE + 1,
    };
    static const struct {
        const char *what;
        int32_t event[2];
        uint64_t bits, outline;
    } cases[] = {
        {"within the square and the disc", {5, 3}, 0x3F, 0},
        {"on the rim, within the square", {5, 5}, 0x3F, 1 << DISC},
        {"on the rim and on an edge", {0, 0}, 0x3F, 1 << SQUARE | 1 << DISC},
        {"on an edge, within the disc", {4, 0}, 0x3F, 1 << SQUARE},
        {"on a vertex, outside the disc", {10, 10}, 1 << SQUARE | 1 << STRIP | 1 << SAME, 1 << SQUARE},
        {"on the rim, outside the square", {5, -5}, 0, 0},
        {"outside", {11, 0}, 0, 0},
    };
    for (size_t i = 0; i < LENGTH(cases); i++) {
        struct gate_judgement judgement = gate_judge_event(plan, LENGTH(plan), cases[i].event, 2);
        expect_number(judgement.answer.refusal, GATE_PASSES, cases[i].what);
        expect_number(judgement.bits, cases[i].bits, cases[i].what);
        expect_number(judgement.outline, cases[i].outline, cases[i].what);
    }
}

/* 64 boxes in a line: region r holds the values from r on. */
static void test_all_regions(void) {
    static int32_t plan[2 + 7 * GATE_REGIONS] = {1, GATE_REGIONS};
    static const int32_t events[] = {63, 0, 62, -1};
    for (int r = 0; r < GATE_REGIONS; r++) {
        const int32_t step[] = {GATE_BOX, r, r - 1, 3, 0, r, 65536};
        memcpy(plan + 2 + 7 * r, step, sizeof step);
    }
    struct gate_tally tally;
    gate_count_events(plan, LENGTH(plan), events, LENGTH(events), &tally);
    expect_number(tally.taken, 4, "taken by 64 regions");
    expect_number(tally.unclaimed, 1, "unclaimed by 64 regions");
    for (int r = 0; r < GATE_REGIONS; r++) {
        expect_number(tally.counts[r], r == 0 ? 3 : r < 63 ? 2 : 1, "count of one of 64 regions");
    }
    struct gate_judgement judgement = gate_judge_event(plan, LENGTH(plan), events, 1);
    expect_number(judgement.bits, UINT64_MAX, "member of all 64 regions");
    expect_number(judgement.outline, 0, "64 boxes have no outline");
}

/* The row of a count: what is expected of taken, spoilt and unclaimed; what stood in it before must be gone. */
static void expect_unclaimed(const char *what, const int32_t *plan, size_t plan_len, const int32_t *events, size_t events_len,
                             uint64_t taken, uint64_t spoilt, uint64_t unclaimed) {
    uint64_t out[GATE_COUNT_OUT + 1];
    memset(out, 0xFF, sizeof out);
    gate_count(plan, plan_len, events, events_len, out);
    expect_number(out[GATE_OUT_REFUSAL], GATE_PASSES, what);
    expect_number(out[GATE_OUT_PLACE], 0, what);
    expect_number(out[GATE_OUT_TAKEN], taken, what);
    expect_number(out[GATE_OUT_SPOILT_COUNT], spoilt, what);
    expect_number(out[GATE_OUT_UNCLAIMED], unclaimed, what);
    expect_number(out[GATE_COUNT_OUT], UINT64_MAX, "the number behind the row");
    struct gate_tally tally;
    memset(&tally, 0xFF, sizeof tally);
    gate_count_events(plan, plan_len, events, events_len, &tally);
    expect_number(tally.unclaimed, unclaimed, what);
}

static void test_unclaimed(void) {
    expect_number(GATE_OUT_UNCLAIMED, GATE_OUT_COUNTS + GATE_REGIONS, "unclaimed stands behind the counts");
    expect_number(GATE_COUNT_OUT, GATE_OUT_UNCLAIMED + 1, "unclaimed is the last number of the row");
    expect_unclaimed("the worked example", example, LENGTH(example), example_events, LENGTH(example_events), 5, 1, 1);
    expect_unclaimed("no event", example, LENGTH(example), example_events, 0, 0, 0, 0);

    static const int32_t no_region[] = {1, 0}, values[] = {5, -65537, 65535, 65536, -65536, 0};
    expect_unclaimed("no region", no_region, LENGTH(no_region), values, LENGTH(values), 4, 2, 4);
    expect_unclaimed("no region, no event", no_region, LENGTH(no_region), values, 0, 0, 0, 0);

    static const int32_t spoilt[] = {65536, 0, 0, -65537, 70000, 70000, INT32_MIN, INT32_MAX};
    expect_unclaimed("all events spoilt", example, LENGTH(example), spoilt, LENGTH(spoilt), 0, 4, 0);
    expect_unclaimed("all events spoilt, no region", no_region, LENGTH(no_region), spoilt + 4, 4, 0, 4, 0);

    /* A parent's member is claimed by it alone; in a shape but outside its parent is in no region. */
    static const int32_t within[] = {2, 2, GATE_BOX, 1, -1, 3, 0, 0, 10, GATE_BOX, 0, 1, 3, 1, 0, 10};
    static const int32_t places[] = {5, 5, 5, 50, 50, 5, 50, 50};
    expect_unclaimed("outside a parent", within, LENGTH(within), places, LENGTH(places), 4, 0, 2);

    /* A complement claims all that is outside of it: nobody is left. */
    static const int32_t others[] = {2, 2, GATE_BOX, 1, -1, 3, 0, 0, 10, GATE_NOT, 0, -1, 1, 2 * 1};
    expect_unclaimed("a region and its complement", others, LENGTH(others), places, LENGTH(places), 4, 0, 0);
    static const int32_t none[] = {2, 1, GATE_BOX, 0, -1, 3, 0, -65536, -65535};
    expect_unclaimed("a region without members", none, LENGTH(none), places, LENGTH(places), 4, 0, 4);

    /* 64 boxes that each hold one value: only the last region holds 63, and none holds 64. Lists around 64 events too. */
    static int32_t each[2 + 7 * GATE_REGIONS] = {1, GATE_REGIONS}, many[200];
    for (int r = 0; r < GATE_REGIONS; r++) {
        const int32_t step[] = {GATE_BOX, r, -1, 3, 0, r, r + 1};
        memcpy(each + 2 + 7 * r, step, sizeof step);
    }
    static const int32_t last[] = {63}, first[] = {0}, beyond[] = {64}, some[] = {63, 64, 63, -1, 65536, 31};
    expect_unclaimed("in the last region only", each, LENGTH(each), last, 1, 1, 0, 0);
    expect_unclaimed("in the first region only", each, LENGTH(each), first, 1, 1, 0, 0);
    expect_unclaimed("in none of 64 regions", each, LENGTH(each), beyond, 1, 1, 0, 1);
    expect_unclaimed("in the last region, in another, in none, spoilt", each, LENGTH(each), some, LENGTH(some), 5, 1, 2);
    for (size_t i = 0; i < LENGTH(many); i++) many[i] = i % 3 == 0 ? 64 : i % 3 == 1 ? 63 : 70000;
    for (size_t len = 62; len <= LENGTH(many); len += len < 66 ? 1 : 67) {
        expect_unclaimed("events by threes: in no region, in the last, spoilt", each, LENGTH(each), many, len,
                         (len + 2) / 3 + (len + 1) / 3, len / 3, (len + 2) / 3);
    }
}

/* 64 triangles around the origin, each the parent of the next; it is a vertex of every other one. */
static void test_all_outlines(void) {
    static int32_t plan[2 + 12 * GATE_REGIONS] = {2, GATE_REGIONS};
    static const int32_t origin[] = {0, 0};
    for (int r = 0; r < GATE_REGIONS; r++) {
        const int32_t step[] = {GATE_POLYGON, r, r - 1, 8, 0, 1, -9, -9, 9, -9, 0, r % 2 ? 0 : 9};
        memcpy(plan + 2 + 12 * r, step, sizeof step);
    }
    struct gate_judgement judgement = gate_judge_event(plan, LENGTH(plan), origin, 2);
    expect_number(judgement.answer.refusal, GATE_PASSES, "event of 64 triangles is judged");
    expect_number(judgement.bits, UINT64_MAX, "member of all 64 triangles");
    expect_number(judgement.outline, UINT64_C(0xAAAAAAAAAAAAAAAA), "on the outline of every other triangle");
}

/* ---- Refusals ---- */

/* The plan must be refused with this number and place by all three functions, whatever the events are. */
static void expect_refused(const char *what, const int32_t *plan, size_t plan_len, uint64_t number, uint64_t place) {
    uint64_t checked[GATE_CHECK_OUT], judged[GATE_JUDGE_OUT], counted[GATE_COUNT_OUT], refused[GATE_COUNT_OUT] = {0};
    refused[GATE_OUT_REFUSAL] = number;
    refused[GATE_OUT_PLACE] = place;
    memset(checked, 0xFF, sizeof checked);
    memset(judged, 0xFF, sizeof judged);
    memset(counted, 0xFF, sizeof counted);
    gate_check(plan, plan_len, checked);
    gate_judge(plan, plan_len, example_events, 3, judged);
    gate_count(plan, plan_len, example_events, LENGTH(example_events), counted);
    expect_number(checked[GATE_OUT_REFUSAL], number, what);
    expect_number(checked[GATE_OUT_PLACE], place, what);
    expect(memcmp(judged, refused, sizeof judged) == 0, what);
    expect(memcmp(counted, refused, sizeof counted) == 0, what);
}

struct form_case {
    const char *what;
    uint64_t place;
    size_t len;
    int32_t words[24];
};

/* Plans that are malformed, and the place. */
static const struct form_case malformed[] = {
    {"empty plan", 0, 0, {0}},
    {"n is 0", 0, 1, {0}},
    {"n is 9", 0, 2, {9, 0}},
    {"plan of one word", 1, 1, {2}},
    {"65 steps", 1, 2, {2, 65}},
    {"-1 steps", 1, 2, {2, -1}},
    {"words run out before a step", 2, 2, {2, 1}},
    {"kind 0", 2, 3, {2, 1, 0}},
    {"kind 9", 2, 7, {2, 1, 9, 0, -1, 1, 0}},
    {"words run out in a header", 3, 3, {2, 1, 1}},
    {"region not below the step count", 3, 9, {2, 1, 1, 1, -1, 3, 0, 0, 1}},
    {"region set twice", 10, 16, {2, 2, 1, 0, -1, 3, 0, 0, 1, 1, 0, -1, 3, 0, 0, 1}},
    {"parent is -2", 4, 9, {2, 1, 1, 0, -2, 3, 0, 0, 1}},
    {"parent is the region itself", 4, 9, {2, 1, 1, 0, 0, 3, 0, 0, 1}},
    {"parent is a later region", 4, 16, {2, 2, 1, 0, 1, 3, 0, 0, 1, 1, 1, -1, 3, 0, 0, 1}},
    {"box of 4 words", 5, 10, {2, 1, 1, 0, -1, 4, 0, 0, 1, 1}},
    {"box of 27 words", 5, 6, {2, 1, 1, 0, -1, 27}},
    {"bad dimension in a plan cut off", 6, 7, {2, 1, 1, 0, -1, 3, 5}},
    {"words run out in a box", 8, 8, {2, 1, 1, 0, -1, 3, 0, 0}},
    {"dimension twice in a box", 9, 12, {2, 1, 1, 0, -1, 6, 0, 0, 1, 0, 0, 1}},
    {"min below the range", 7, 9, {2, 1, 1, 0, -1, 3, 0, -65537, 1}},
    {"min above the range", 7, 9, {2, 1, 1, 0, -1, 3, 0, 65536, 65536}},
    {"max above the range", 8, 9, {2, 1, 1, 0, -1, 3, 0, 0, 65537}},
    {"min and max equal", 8, 9, {2, 1, 1, 0, -1, 3, 0, 5, 5}},
    {"polygon of two vertices", 5, 12, {2, 1, 2, 0, -1, 6, 0, 1, 0, 0, 4, 0}},
    {"polygon of 9 words", 5, 15, {2, 1, 2, 0, -1, 9, 0, 1, 0, 0, 4, 0, 8, 0, 0}},
    {"polygon of 516 words", 5, 6, {2, 1, 2, 0, -1, 516}},
    {"polygon with a dimension twice", 7, 14, {2, 1, 2, 0, -1, 8, 1, 1, 0, 0, 4, 0, 8, 0}},
    {"polygon in one dimension", 7, 14, {1, 1, 2, 0, -1, 8, 0, 1, 0, 0, 4, 0, 8, 0}},
    {"vertex off the range", 13, 14, {2, 1, 2, 0, -1, 8, 0, 1, 0, 0, 4, 0, 8, 65536}},
    {"ellipse of 7 words", 5, 13, {2, 1, 3, 0, -1, 7, 0, 1, 0, 0, 5, 6, 9}},
    {"mean off the range", 9, 14, {2, 1, 3, 0, -1, 8, 0, 1, 0, -65537, 5, 6, 9, 1}},
    {"matrix 4, 6, 9", 10, 14, {2, 1, 3, 0, -1, 8, 0, 1, 0, 0, 4, 6, 9, 1}},
    {"matrix -5, 6, -9", 10, 14, {2, 1, 3, 0, -1, 8, 0, 1, 0, 0, -5, 6, -9, 1}},
    {"bad matrix before a bad D^2", 10, 14, {2, 1, 3, 0, -1, 8, 0, 1, 0, 0, 4, 6, 9, 0}},
    {"bad matrix in a plan cut off", 10, 13, {2, 1, 3, 0, -1, 8, 0, 1, 0, 0, 4, 6, 9}},
    {"matrix cut off", 12, 12, {2, 1, 3, 0, -1, 8, 0, 1, 0, 0, 0, 6}},
    {"entry off the range before the matrix", 11, 14, {2, 1, 3, 0, -1, 8, 0, 1, 0, 0, 0, 16777217, 9, 1}},
    {"D^2 is 0", 13, 14, {2, 1, 3, 0, -1, 8, 0, 1, 0, 0, 5, 6, 9, 0}},
    {"D^2 is 4097", 13, 14, {2, 1, 3, 0, -1, 8, 0, 1, 0, 0, 5, 6, 9, 4097}},
    {"decimal ellipse of 7 words", 5, 13, {2, 1, 7, 0, -1, 7, 0, 1, 0, 0, 5, 6, 9}},
    {"decimal ellipse with a dimension twice", 7, 14, {2, 1, 7, 0, -1, 8, 1, 1, 0, 0, 5, 6, 9, 1}},
    {"mean of a decimal ellipse off the range", 8, 14, {2, 1, 7, 0, -1, 8, 0, 1, 65536, 0, 5, 6, 9, 1}},
    {"decimal matrix 4, 6, 9", 10, 14, {2, 1, 7, 0, -1, 8, 0, 1, 0, 0, 4, 6, 9, 1}},
    {"decimal matrix -5, 6, -9", 10, 14, {2, 1, 7, 0, -1, 8, 0, 1, 0, 0, -5, 6, -9, 1}},
    {"greatest decimal matrix of determinant 0", 10, 14,
     {2, 1, 7, 0, -1, 8, 0, 1, 0, 0, 2000000000, -2000000000, 2000000000, 1}},
    {"bad decimal matrix before a bad D^2", 10, 14, {2, 1, 7, 0, -1, 8, 0, 1, 0, 0, 4, 6, 9, 0}},
    {"bad decimal matrix in a plan cut off", 10, 13, {2, 1, 7, 0, -1, 8, 0, 1, 0, 0, 4, 6, 9}},
    {"decimal entry above the range before the matrix", 12, 14, {2, 1, 7, 0, -1, 8, 0, 1, 0, 0, 0, 6, 2000000001, 1}},
    {"decimal entry below the range", 11, 14, {2, 1, 7, 0, -1, 8, 0, 1, 0, 0, 5, -2000000001, 9, 1}},
    {"decimal D^2 is 0", 13, 14, {2, 1, 7, 0, -1, 8, 0, 1, 0, 0, 5, 6, 9, 0}},
    {"decimal D^2 is 4096001", 13, 14, {2, 1, 7, 0, -1, 8, 0, 1, 0, 0, 5, 6, 9, 4096001}},
    {"ellipsoid of 12 words", 5, 18, {3, 1, 8, 0, -1, 12, 0, 1, 2, 0, 0, 0, 4, 2, -2, 5, 1, 3}},
    {"ellipsoid of 14 words", 5, 20, {3, 1, 8, 0, -1, 14, 0, 1, 2, 0, 0, 0, 4, 2, -2, 5, 1, 3, 9, 9}},
    {"ellipsoid in two dimensions", 8, 19, {2, 1, 8, 0, -1, 13, 0, 1, 2, 0, 0, 0, 4, 2, -2, 5, 1, 3, 9}},
    {"ellipsoid with dimensions 1, 1, 0", 7, 19, {3, 1, 8, 0, -1, 13, 1, 1, 0, 0, 0, 0, 4, 2, -2, 5, 1, 3, 9}},
    {"ellipsoid with dimensions 0, 1, 1", 8, 19, {3, 1, 8, 0, -1, 13, 0, 1, 1, 0, 0, 0, 4, 2, -2, 5, 1, 3, 9}},
    {"ellipsoid with dimensions 1, 0, 1", 8, 19, {3, 1, 8, 0, -1, 13, 1, 0, 1, 0, 0, 0, 4, 2, -2, 5, 1, 3, 9}},
    {"first mean of an ellipsoid off the range", 9, 19, {3, 1, 8, 0, -1, 13, 0, 1, 2, 65536, 0, 0, 4, 2, -2, 5, 1, 3, 9}},
    {"last mean of an ellipsoid off the range", 11, 19, {3, 1, 8, 0, -1, 13, 0, 1, 2, 0, 0, -65537, 4, 2, -2, 5, 1, 3, 9}},
    {"matrix of determinant 0", 12, 19, {3, 1, 8, 0, -1, 13, 0, 1, 2, 0, 0, 0, 4, 2, -2, 5, 1, 2, 9}},
    {"matrix of a determinant below 0", 12, 19, {3, 1, 8, 0, -1, 13, 0, 1, 2, 0, 0, 0, 4, 2, -2, 5, 1, 1, 9}},
    {"matrix of upper left determinant 0", 12, 19, {3, 1, 8, 0, -1, 13, 0, 1, 2, 0, 0, 0, 4, 2, 0, 1, 0, 3, 9}},
    {"c11 and c22 below 0, determinants above", 12, 19, {3, 1, 8, 0, -1, 13, 0, 1, 2, 0, 0, 0, -1, 0, 0, -1, 0, 1, 9}},
    {"c22 and c33 below 0, determinant above", 12, 19, {3, 1, 8, 0, -1, 13, 0, 1, 2, 0, 0, 0, 1, 0, 0, -1, 0, -1, 9}},
    {"c11 and c33 below 0, determinant above", 12, 19, {3, 1, 8, 0, -1, 13, 0, 1, 2, 0, 0, 0, -1, 0, 0, 1, 0, -1, 9}},
    {"greatest matrix of three dimensions, determinant 0", 12, 19,
     {3, 1, 8, 0, -1, 13, 0, 1, 2, 0, 0, 0, 16777216, -16777216, 16777216, 16777216, -16777216, 16777216, 9}},
    {"determinant below 0 that 64 bits would have above", 12, 19,
     {3, 1, 8, 0, -1, 13, 0, 1, 2, 0, 0, 0, 16777216, 0, 0, 16777216, 0, -16777215, 9}},
    {"bad matrix of an ellipsoid before a bad D^2", 12, 19, {3, 1, 8, 0, -1, 13, 0, 1, 2, 0, 0, 0, 4, 2, -2, 5, 1, 2, 0}},
    {"bad matrix of an ellipsoid in a plan cut off", 12, 18, {3, 1, 8, 0, -1, 13, 0, 1, 2, 0, 0, 0, 4, 2, -2, 5, 1, 2}},
    {"matrix of an ellipsoid cut off", 17, 17, {3, 1, 8, 0, -1, 13, 0, 1, 2, 0, 0, 0, 0, 2, -2, 5, 1}},
    {"c33 off the range before the matrix", 17, 19, {3, 1, 8, 0, -1, 13, 0, 1, 2, 0, 0, 0, 0, 2, -2, 5, 1, 16777217, 9}},
    {"c23 below the range", 16, 19, {3, 1, 8, 0, -1, 13, 0, 1, 2, 0, 0, 0, 4, 2, -2, 5, -16777217, 3, 9}},
    {"D^2 of an ellipsoid is 0", 18, 19, {3, 1, 8, 0, -1, 13, 0, 1, 2, 0, 0, 0, 4, 2, -2, 5, 1, 3, 0}},
    {"D^2 of an ellipsoid is 4097", 18, 19, {3, 1, 8, 0, -1, 13, 0, 1, 2, 0, 0, 0, 4, 2, -2, 5, 1, 3, 4097}},
    {"word left over behind an ellipsoid", 19, 20, {3, 1, 8, 0, -1, 13, 0, 1, 2, 0, 0, 0, 4, 2, -2, 5, 1, 3, 9, 0}},
    {"and of 64 operands", 5, 6, {2, 1, 4, 0, -1, 64}},
    {"entry below the range", 10, 11, {2, 1, 3, 0, -1, 8, 0, 1, 0, 0, -16777217}},
    {"and of one operand", 12, 14, {2, 2, 1, 0, -1, 3, 0, 0, 1, 4, 1, -1, 1, 0}},
    {"not of two operands", 12, 15, {2, 2, 1, 0, -1, 3, 0, 0, 1, 6, 1, -1, 2, 0, 0}},
    {"operand of a region that is not set", 6, 8, {2, 3, 5, 0, -1, 2, 2, 5}},
    {"operand -1", 13, 14, {2, 2, 1, 0, -1, 3, 0, 0, 1, 6, 1, -1, 1, -1}},
    {"operand is the region itself", 14, 15, {2, 2, 1, 0, -1, 3, 0, 0, 1, 5, 1, -1, 2, 1, 2}},
    {"operand beyond all regions", 13, 14, {2, 2, 1, 0, -1, 3, 0, 0, 1, 6, 1, -1, 1, 128}},
    {"word left over", 2, 3, {1, 0, 1}},
    {"step left over", 9, 16, {2, 1, 1, 0, -1, 3, 0, 0, 1, 1, 0, -1, 3, 0, 0, 1}},
};

/* Plans that pass though they are near a limit. */
static const struct form_case good[] = {
    {"no step", 0, 2, {1, 0}},
    {"widest box", 0, 9, {8, 1, 1, 0, -1, 3, 7, -65536, 65536}},
    {"regions in any order", 0, 16, {2, 2, 1, 1, -1, 3, 0, 0, 1, 1, 0, 1, 3, 0, 0, 1}},
    {"vertices at the ends", 0, 14, {2, 1, 2, 0, -1, 8, 1, 0, -65536, 65535, 65535, 65535, 0, -65536}},
    {"matrix 5, 6, 9", 0, 14, {2, 1, 3, 0, -1, 8, 0, 1, 0, 0, 5, 6, 9, 1}},
    {"greatest matrix", 0, 14, {2, 1, 3, 0, -1, 8, 0, 1, 0, 0, 16777216, -16777215, 16777216, 4096}},
    {"decimal matrix 5, 6, 9", 0, 14, {2, 1, 7, 0, -1, 8, 0, 1, 0, 0, 5, 6, 9, 1}},
    {"greatest decimal matrix", 0, 14, {2, 1, 7, 0, -1, 8, 0, 1, 0, 0, 2000000000, -1999999999, 2000000000, 4096000}},
    {"ellipsoid of the last dimensions", 0, 19, {8, 1, 8, 0, -1, 13, 7, 5, 6, 65535, -65536, 0, 4, 2, -2, 5, 1, 3, 9}},
    {"least ellipsoid", 0, 19, {3, 1, 8, 0, -1, 13, 0, 1, 2, 0, 0, 0, 1, 0, 0, 1, 0, 1, 1}},
    {"greatest upright ellipsoid", 0, 19, {3, 1, 8, 0, -1, 13, 0, 1, 2, 0, 0, 0, 16777216, 0, 0, 16777216, 0, 16777216, 4096}},
    {"greatest tilted ellipsoid", 0, 19,
     {3, 1, 8, 0, -1, 13, 0, 1, 2, 0, 0, 0, 16777216, -16777215, 16777215, 16777216, -16777215, 16777216, 4096}},
};

static void test_form(void) {
    for (size_t i = 0; i < LENGTH(malformed); i++) {
        const struct form_case *plan = &malformed[i];
        expect_refused(plan->what, plan->words, plan->len, GATE_MALFORMED_PLAN, plan->place);
    }
    for (size_t i = 0; i < LENGTH(good); i++) {
        struct gate_answer answer = gate_check_plan(good[i].words, good[i].len);
        expect_number(answer.refusal, GATE_PASSES, good[i].what);
        expect_number(answer.place, 0, good[i].what);
    }
    for (size_t i = 0; i < LENGTH(example); i++) {
        expect_refused("example cut off", example, i, GATE_MALFORMED_PLAN, i);
    }
}

/* 2,023 vertices in eight polygons make a plan of 4,096 words. */
static void test_longest_plan(void) {
    static int32_t plan[GATE_MAX_WORDS + 1];
    size_t len = 0;
    plan[len++] = 2;
    plan[len++] = 8;
    for (int step = 0; step < 8; step++) {
        int vertices = step < 7 ? 256 : 2023 - 7 * 256;
        plan[len++] = GATE_POLYGON;
        plan[len++] = step;
        plan[len++] = GATE_NO_PARENT;
        plan[len++] = 2 + 2 * vertices;
        plan[len++] = 0;
        plan[len++] = 1;
        for (int vertex = 0; vertex < vertices; vertex++) {
            plan[len++] = vertex;
            plan[len++] = vertex * vertex % 1000;
        }
    }
    expect_number(len, GATE_MAX_WORDS, "words of the longest plan");
    expect_number(gate_check_plan(plan, len).refusal, GATE_PASSES, "longest plan passes");
    expect_refused("one word more", plan, len + 1, GATE_LONG_PLAN, 0);
    plan[0] = 0;
    expect_refused("one word more in a malformed plan", plan, len + 1, GATE_LONG_PLAN, 0);
    expect_refused("longest plan, malformed", plan, len, GATE_MALFORMED_PLAN, 0);
}

/* The answer, and no bit in either set: the event is refused, or in no region of the example. */
static void expect_judged(const char *what, const int32_t *event, size_t event_len, uint64_t number, uint64_t place) {
    uint64_t judged[GATE_JUDGE_OUT];
    memset(judged, 0xFF, sizeof judged);
    gate_judge(example, LENGTH(example), event, event_len, judged);
    expect_number(judged[GATE_OUT_REFUSAL], number, what);
    expect_number(judged[GATE_OUT_PLACE], place, what);
    expect_number(judged[GATE_OUT_BITS], 0, what);
    expect_number(judged[GATE_OUT_OUTLINE], 0, what);
}

static void test_events(void) {
    static const int32_t spoilt_first[] = {70000, 0}, spoilt_later[] = {0, -65537}, spoilt_both[] = {65536, 65536};
    static const int32_t ends[] = {-65536, 65535}, spoilt_and_ragged[] = {70000, 0, 0};
    static const uint64_t none[GATE_COUNT_OUT];
    uint64_t out[GATE_COUNT_OUT], refused[GATE_COUNT_OUT] = {0};

    expect_judged("first value spoilt", spoilt_first, 2, GATE_SPOILT, 0);
    expect_judged("later value spoilt", spoilt_later, 2, GATE_SPOILT, 1);
    expect_judged("both values spoilt", spoilt_both, 2, GATE_SPOILT, 0);
    expect_judged("values at the ends", ends, 2, GATE_PASSES, 0);
    expect_judged("event of no value", ends, 0, GATE_RAGGED, 0);
    expect_judged("event of one value", ends, 1, GATE_RAGGED, 1);
    expect_judged("ragged before spoilt", spoilt_and_ragged, 3, GATE_RAGGED, 3);

    for (size_t len = 1; len < LENGTH(example_events); len += 2) {
        memset(out, 0xFF, sizeof out);
        refused[GATE_OUT_REFUSAL] = GATE_RAGGED;
        refused[GATE_OUT_PLACE] = len;
        gate_count(example, LENGTH(example), example_events, len, out);
        expect(memcmp(out, refused, sizeof out) == 0, "ragged list");
    }
    memset(out, 0xFF, sizeof out);
    gate_count(example, LENGTH(example), example_events, 0, out);
    expect(memcmp(out, none, sizeof out) == 0, "list of no event");
}

/* ---- Compiling ---- */

enum { UNTOUCHED = 2100000000 }; /* no word of a plan */

static const char example_table[] =
    "dims\tFSC\tSSC\n"
    "rect\tLive\tRing\tFSC\t300\t600\n"
    "ellip\tRing\t-\tFSC\tSSC\t400\t200\t40000\t0\t30625\t1\n"
    "quad\tQ\tRing\t1\tFSC\t1\t400\tLo\t0\tHi\t500\n"
    "and\tBoth\t-\tLive\t!Hi\n";

/* Compiles into a slice of `room` words, expects the answer, and that every word behind the plan is as it was. */
static void expect_compiled(const char *what, const char *table, size_t room, uint64_t refusal, uint64_t place, const int32_t *plan, size_t words,
                            uint64_t regions) {
    static int32_t slice[GATE_MAX_WORDS];
    uint64_t out[GATE_COMPILE_OUT];
    for (size_t i = 0; i < GATE_MAX_WORDS; i++) slice[i] = UNTOUCHED;
    memset(out, 0xFF, sizeof out);
    gate_compile((const uint8_t *)table, strlen(table), slice, room, out);
    expect_number(out[GATE_COMPILE_REFUSAL], refusal, what);
    expect_number(out[GATE_COMPILE_PLACE], place, what);
    expect_number(out[GATE_COMPILE_WORDS], words, what);
    expect_number(out[GATE_COMPILE_REGIONS], regions, what);
    expect(words == 0 || memcmp(slice, plan, words * sizeof slice[0]) == 0, what);
    size_t touched = 0;
    for (size_t i = words; i < GATE_MAX_WORDS; i++) touched += slice[i] != UNTOUCHED;
    expect_number(touched, 0, what);
}

static void test_compiling(void) {
    static const int32_t head_alone[] = {1, 0};
    expect_compiled("the worked example", example_table, GATE_MAX_WORDS, 0, 0, example, LENGTH(example), 5);
    expect_compiled("a slice just long enough", example_table, LENGTH(example), 0, 0, example, LENGTH(example), 5);
    for (size_t room = 0; room < LENGTH(example); room++) expect_compiled("short slice", example_table, room, 18, 0, NULL, 0, 0);
    expect_compiled("a head alone", "dims\tA\n", 2, 0, 0, head_alone, 2, 0);
    expect_compiled("no table", "", GATE_MAX_WORDS, 2, 0, NULL, 0, 0);
    expect_compiled("open line", "dims\tA", GATE_MAX_WORDS, 2, 0, NULL, 0, 0);
    expect_compiled("bad head", "dims\n", GATE_MAX_WORDS, 3, 1, NULL, 0, 0);
    expect_compiled("unknown kind", "dims\tA\nbox\tX\t-\tA\t0\t1\n", GATE_MAX_WORDS, 4, 2, NULL, 0, 0);
    expect_compiled("circle", "dims\tA\nnot\tIn\t-\tX\nnot\tX\t-\tY\nnot\tY\t-\tX\n", GATE_MAX_WORDS, 16, 3, NULL, 0, 0);
}

/* Lines `ellip` with a point in the entries or in D^2. */
static void test_decimals(void) {
    static const struct {
        const char *what, *fields; /* c11, c12, c22, D^2 */
        uint64_t refusal;
        int32_t kind, words[4];
    } cases[] = {
        {"an ellipse with decimals", "1134.5\t-0.5\t899.125\t4", 0, GATE_DECIMAL_ELLIPSE, {1134500, -500, 899125, 4000}},
        {"zeros at the end", "1134.50\t-0.500\t899.125\t4.0", 0, GATE_DECIMAL_ELLIPSE, {1134500, -500, 899125, 4000}},
        {"a point in D^2 alone", "5\t6\t9\t4.0", 0, GATE_DECIMAL_ELLIPSE, {5000, 6000, 9000, 4000}},
        {"greatest with decimals", "2000000\t-1999999.999\t2000000.0\t4096", 0, GATE_DECIMAL_ELLIPSE,
         {2000000000, -1999999999, 2000000000, 4096000}},
        {"least with decimals", "0.001\t0.0\t0.001\t0.001", 0, GATE_DECIMAL_ELLIPSE, {1, 0, 1, 1}},
        {"no point", "2000001\t0\t9\t4", 0, GATE_ELLIPSE, {2000001, 0, 9, 4}},
        {"minus zero", "5\t-0.000\t9\t4", 7, 0, {0}},
        {"four decimals", "5.0000\t6\t9\t4", 7, 0, {0}},
        {"nothing behind the point", "5.\t6\t9\t4", 7, 0, {0}},
        {"nothing before the point", ".5\t0\t9\t4", 7, 0, {0}},
        {"a whole entry beyond the range of a line with decimals", "2000001\t0\t9\t4.0", 8, 0, {0}},
        {"an entry of 2000000.001", "5\t0\t2000000.001\t4", 8, 0, {0}},
        {"D^2 of 0.000", "5\t6\t9\t0.000", 8, 0, {0}},
        {"D^2 of 4096.001", "5\t6\t9\t4096.001", 8, 0, {0}},
        {"a bad matrix with decimals", "0.4\t0.6\t0.9\t4", 11, 0, {0}},
    };
    for (size_t i = 0; i < LENGTH(cases); i++) {
        const int32_t *words = cases[i].words;
        const int32_t plan[] = {2, 1, cases[i].kind, 0, -1, 8, 0, 1, 7, -8, words[0], words[1], words[2], words[3]};
        char table[128];
        snprintf(table, sizeof table, "dims\tA\tB\nellip\tE\t-\tA\tB\t7\t-8\t%s\n", cases[i].fields);
        if (cases[i].refusal == 0) expect_compiled(cases[i].what, table, GATE_MAX_WORDS, 0, 0, plan, LENGTH(plan), 1);
        else expect_compiled(cases[i].what, table, GATE_MAX_WORDS, cases[i].refusal, 2, NULL, 0, 0);
    }
    expect_compiled("a mean with decimals", "dims\tA\tB\nellip\tE\t-\tA\tB\t7.0\t-8\t5\t6\t9\t4\n", GATE_MAX_WORDS, 7, 2, NULL, 0, 0);
}

/* Lines `ellip3`. */
static void test_ellipsoid_lines(void) {
    static const struct {
        const char *what, *fields; /* the entries and D^2 */
        uint64_t refusal;
        int32_t words[7];
    } cases[] = {
        {"an ellipsoid", "4\t2\t-2\t5\t1\t3\t9", 0, {4, 2, -2, 5, 1, 3, 9}},
        {"least ellipsoid", "1\t0\t0\t1\t0\t1\t1", 0, {1, 0, 0, 1, 0, 1, 1}},
        {"greatest ellipsoid", "16777216\t-16777215\t16777215\t16777216\t-16777215\t16777216\t4096", 0,
         {16777216, -16777215, 16777215, 16777216, -16777215, 16777216, 4096}},
        {"an ellipsoid with a field less", "4\t2\t-2\t5\t1\t3", 5, {0}},
        {"an ellipsoid with a field more", "4\t2\t-2\t5\t1\t3\t9\t9", 5, {0}},
        {"a point in an entry of an ellipsoid", "4\t2\t-2\t5.0\t1\t3\t9", 7, {0}},
        {"a point in an ellipsoid's D^2", "4\t2\t-2\t5\t1\t3\t9.0", 7, {0}},
        {"an ellipsoid's entry above the range", "4\t2\t-2\t5\t1\t16777217\t9", 8, {0}},
        {"an ellipsoid's entry below the range", "4\t2\t-16777217\t5\t1\t3\t9", 8, {0}},
        {"an ellipsoid's D^2 of 0", "4\t2\t-2\t5\t1\t3\t0", 8, {0}},
        {"an ellipsoid's D^2 of 4097", "4\t2\t-2\t5\t1\t3\t4097", 8, {0}},
        {"an ellipsoid's determinant of 0", "4\t2\t-2\t5\t1\t2\t9", 11, {0}},
        {"an ellipsoid's upper left determinant of 0", "4\t2\t0\t1\t0\t3\t9", 11, {0}},
        {"an ellipsoid's c11 and c22 below 0", "-1\t0\t0\t-1\t0\t1\t9", 11, {0}},
    };
    for (size_t i = 0; i < LENGTH(cases); i++) {
        const int32_t *words = cases[i].words;
        const int32_t plan[] = {3, 1, GATE_ELLIPSOID, 0, -1, 13, 0, 2, 1, 7, -8, 9,
                                words[0], words[1], words[2], words[3], words[4], words[5], words[6]};
        char table[160];
        snprintf(table, sizeof table, "dims\tA\tB\tC\nellip3\tE\t-\tA\tC\tB\t7\t-8\t9\t%s\n", cases[i].fields);
        if (cases[i].refusal == 0) expect_compiled(cases[i].what, table, GATE_MAX_WORDS, 0, 0, plan, LENGTH(plan), 1);
        else expect_compiled(cases[i].what, table, GATE_MAX_WORDS, cases[i].refusal, 2, NULL, 0, 0);
    }
    expect_compiled("an ellipsoid with a dimension twice", "dims\tA\tB\tC\nellip3\tE\t-\tA\tC\tA\t7\t-8\t9\t4\t2\t-2\t5\t1\t3\t9\n",
                    GATE_MAX_WORDS, 9, 2, NULL, 0, 0);
    expect_compiled("an ellipsoid's mean off the range", "dims\tA\tB\tC\nellip3\tE\t-\tA\tB\tC\t7\t-8\t65536\t4\t2\t-2\t5\t1\t3\t9\n",
                    GATE_MAX_WORDS, 8, 2, NULL, 0, 0);
}

int main(void) {
    test_example();
    test_compiling();
    test_decimals();
    test_ellipsoid_lines();
    test_shapes();
    test_ellipsoids();
    test_outlines();
    test_all_regions();
    test_unclaimed();
    test_all_outlines();
    test_form();
    test_longest_plan();
    test_events();
    printf("%d passed, %d failed\n", passed, failed);
    return failed != 0;
}
