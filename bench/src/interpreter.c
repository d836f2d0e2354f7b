/*
 * The functions of gatecount.h written plainly in C: what the proved counter is compared with.
 * A plan is checked once; after that its words are read without a test, as C programmers would.
 */
#include "gatecount.h"

#include <stdbool.h>
#include <string.h>

enum { MIN_VALUE = -65536, MAX_VALUE = 65535, MAX_ENTRY = 16777216, MAX_D2 = 4096, MAX_STEPS = GATE_REGIONS };

/* Entries and D^2 of a decimal ellipse are in thousandths. */
enum { MAX_DECIMAL_ENTRY = 2000000000, MAX_DECIMAL_D2 = 4096000 };

/* Where a step's header, an ellipse's body and an ellipsoid's have their words; the six entries stand row by row. */
enum { KIND, REGION, PARENT, LENGTH, HEADER };
enum { MEAN_X = 2, MEAN_Y, C11, C12, C22, D2, ELLIPSE_LENGTH };
enum { MEANS_3 = 3, ENTRIES_3 = 6, D2_3 = 12, ELLIPSOID_LENGTH };

static bool within(int32_t low, int32_t x, int32_t high) { return low <= x && x <= high; }

static bool has(uint64_t bits, int32_t region) { return bits >> region & 1; }

/* ---- Members ---- */

static bool in_box(const int32_t *body, int length, const int32_t *event) {
    for (int i = 0; i < length; i += 3) {
        int32_t value = event[body[i]];
        if (value < body[i + 1] || value >= body[i + 2]) return false;
    }
    return true;
}

static bool between(int64_t a, int64_t b, int64_t x) { return (a <= x && x <= b) || (b <= x && x <= a); }

/* s of the polygon's rule, for the edge from (x0, y0) to (x1, y1). */
static int64_t s_of(int64_t x0, int64_t y0, int64_t x1, int64_t y1, int64_t x, int64_t y) {
    return (x1 - x0) * (y - y0) - (x - x0) * (y1 - y0);
}

/* Whether the edge with this s carries the point. */
static bool on_edge(int64_t s, int64_t x0, int64_t y0, int64_t x1, int64_t y1, int64_t x, int64_t y) {
    return s == 0 && between(x0, x1, x) && between(y0, y1, y);
}

static bool in_polygon(const int32_t *body, int length, const int32_t *event) {
    int64_t x = event[body[0]], y = event[body[1]], sum = 0;
    int64_t x0 = body[length - 2], y0 = body[length - 1];
    for (int i = 2; i < length; i += 2) {
        int64_t x1 = body[i], y1 = body[i + 1];
        int64_t s = s_of(x0, y0, x1, y1, x, y);
        if (on_edge(s, x0, y0, x1, y1, x, y)) return true;
        if (y0 <= y && y < y1 && s > 0) sum++;
        else if (y1 <= y && y < y0 && s < 0) sum--;
        x0 = x1;
        y0 = y1;
    }
    return sum != 0;
}

/* Left side of the ellipse's rule. */
static int64_t left_side(const int32_t *body, const int32_t *event) {
    int64_t dx = (int64_t)event[body[0]] - body[MEAN_X], dy = (int64_t)event[body[1]] - body[MEAN_Y];
    int64_t c11 = body[C11], c12 = body[C12], c22 = body[C22];
    return c22 * dx * dx - 2 * c12 * dx * dy + c11 * dy * dy;
}

/* Right side of the ellipse's rule. */
static int64_t right_side(const int32_t *body) {
    int64_t c11 = body[C11], c12 = body[C12], c22 = body[C22];
    return body[D2] * (c11 * c22 - c12 * c12);
}

static bool in_ellipse(const int32_t *body, const int32_t *event) { return left_side(body, event) <= right_side(body); }

/* The sides of a decimal ellipse's rule, both multiplied by 1000^3, pass 64 bits; a product of two factors doesn't. */
typedef __int128 wide;

static wide decimal_left_side(const int32_t *body, const int32_t *event) {
    int64_t dx = (int64_t)event[body[0]] - body[MEAN_X], dy = (int64_t)event[body[1]] - body[MEAN_Y];
    int64_t c11 = body[C11], c12 = body[C12], c22 = body[C22];
    return ((wide)(c22 * dx) * dx - (wide)(2 * c12 * dx) * dy + (wide)(c11 * dy) * dy) * 1000000;
}

static wide decimal_right_side(const int32_t *body) {
    int64_t c11 = body[C11], c12 = body[C12], c22 = body[C22];
    return (wide)(c11 * c22 - c12 * c12) * body[D2];
}

__attribute__((noinline)) static bool in_decimal_ellipse(const int32_t *body, const int32_t *event) {
    return decimal_left_side(body, event) <= decimal_right_side(body);
}

/* The matrix of an ellipsoid. */
struct matrix {
    int64_t c11, c12, c13, c22, c23, c33;
};

static struct matrix matrix_of(const int32_t *body) {
    const int32_t *c = body + ENTRIES_3;
    return (struct matrix){c[0], c[1], c[2], c[3], c[4], c[5]};
}

/* Its adjugate, which is symmetric too. */
struct adjugate {
    int64_t a11, a12, a13, a22, a23, a33;
};

static struct adjugate adjugate_of(struct matrix c) {
    return (struct adjugate){
        .a11 = c.c22 * c.c33 - c.c23 * c.c23,
        .a12 = c.c13 * c.c23 - c.c12 * c.c33,
        .a13 = c.c12 * c.c23 - c.c13 * c.c22,
        .a22 = c.c11 * c.c33 - c.c13 * c.c13,
        .a23 = c.c12 * c.c13 - c.c11 * c.c23,
        .a33 = c.c11 * c.c22 - c.c12 * c.c12,
    };
}

static wide determinant(struct matrix c) {
    struct adjugate a = adjugate_of(c);
    return (wide)c.c11 * a.a11 + (wide)c.c12 * a.a12 + (wide)c.c13 * a.a13;
}

/* The sides of an ellipsoid's rule pass 64 bits; an entry of the adjugate and a product of two differences don't. */
static wide ellipsoid_left_side(const int32_t *body, const int32_t *event) {
    int64_t dx = (int64_t)event[body[0]] - body[MEANS_3], dy = (int64_t)event[body[1]] - body[MEANS_3 + 1];
    int64_t dz = (int64_t)event[body[2]] - body[MEANS_3 + 2];
    struct adjugate a = adjugate_of(matrix_of(body));
    return (wide)a.a11 * (dx * dx) + (wide)a.a22 * (dy * dy) + (wide)a.a33 * (dz * dz) +
           (wide)(2 * a.a12) * (dx * dy) + (wide)(2 * a.a13) * (dx * dz) + (wide)(2 * a.a23) * (dy * dz);
}

static wide ellipsoid_right_side(const int32_t *body) { return body[D2_3] * determinant(matrix_of(body)); }

__attribute__((noinline)) static bool in_ellipsoid(const int32_t *body, const int32_t *event) {
    return ellipsoid_left_side(body, event) <= ellipsoid_right_side(body);
}

/*
 * A shape whose rule passes 64 bits. Inlined by gcc it would make counting boxes slower, by up to 30 %, and so would a
 * call for each of the two kinds in the loop over the steps.
 */
__attribute__((noinline)) static bool in_wide_shape(const int32_t *body, const int32_t *event) {
    return body[KIND - HEADER] == GATE_ELLIPSOID ? in_ellipsoid(body, event) : in_decimal_ellipse(body, event);
}

static bool operand(uint64_t bits, int32_t word) { return has(bits, word / 2) != (word % 2 == 1); }

static bool in_all(const int32_t *body, int length, uint64_t bits) {
    for (int i = 0; i < length; i++) {
        if (!operand(bits, body[i])) return false;
    }
    return true;
}

static bool in_any(const int32_t *body, int length, uint64_t bits) {
    for (int i = 0; i < length; i++) {
        if (operand(bits, body[i])) return true;
    }
    return false;
}

static bool in_shape(int32_t kind, const int32_t *body, int length, const int32_t *event, uint64_t bits) {
    switch (kind) {
    case GATE_BOX: return in_box(body, length, event);
    case GATE_POLYGON: return in_polygon(body, length, event);
    case GATE_ELLIPSE: return in_ellipse(body, event);
    case GATE_DECIMAL_ELLIPSE:
    case GATE_ELLIPSOID: return in_wide_shape(body, event);
    case GATE_AND: return in_all(body, length, bits);
    case GATE_OR: return in_any(body, length, bits);
    default: return !operand(bits, body[0]);
    }
}

/* The bits of an event that is taken. */
static uint64_t bits_of(const int32_t *plan, const int32_t *event) {
    uint64_t bits = 0;
    const int32_t *step = plan + 2;
    for (int s = 0; s < plan[1]; s++) {
        const int32_t *body = step + HEADER;
        int length = step[LENGTH];
        bool in_parent = step[PARENT] == GATE_NO_PARENT || has(bits, step[PARENT]);
        if (in_parent && in_shape(step[KIND], body, length, event, bits)) bits |= (uint64_t)1 << step[REGION];
        step = body + length;
    }
    return bits;
}

/* ---- Outlines, for judging only: counting asks who is a member and no more ---- */

static bool on_polygon(const int32_t *body, int length, const int32_t *event) {
    int64_t x = event[body[0]], y = event[body[1]];
    int64_t x0 = body[length - 2], y0 = body[length - 1];
    for (int i = 2; i < length; i += 2) {
        int64_t x1 = body[i], y1 = body[i + 1];
        int64_t s = s_of(x0, y0, x1, y1, x, y);
        if (on_edge(s, x0, y0, x1, y1, x, y)) return true;
        x0 = x1;
        y0 = y1;
    }
    return false;
}

/* Boxes and combinations have no outline. */
static bool on_outline(int32_t kind, const int32_t *body, int length, const int32_t *event) {
    switch (kind) {
    case GATE_POLYGON: return on_polygon(body, length, event);
    case GATE_ELLIPSE: return left_side(body, event) == right_side(body);
    case GATE_DECIMAL_ELLIPSE: return decimal_left_side(body, event) == decimal_right_side(body);
    case GATE_ELLIPSOID: return ellipsoid_left_side(body, event) == ellipsoid_right_side(body);
    default: return false;
    }
}

/* The outline bits of an event that is a member of these regions. */
static uint64_t outline_of(const int32_t *plan, const int32_t *event, uint64_t bits) {
    uint64_t outline = 0;
    const int32_t *step = plan + 2;
    for (int s = 0; s < plan[1]; s++) {
        const int32_t *body = step + HEADER;
        int length = step[LENGTH];
        bool member = has(bits, step[REGION]);
        if (member && on_outline(step[KIND], body, length, event)) outline |= (uint64_t)1 << step[REGION];
        step = body + length;
    }
    return outline;
}

/* The index of the first value that spoils the event, n where there is none. */
static int first_spoilt(const int32_t *event, int n) {
    int i = 0;
    while (i < n && within(MIN_VALUE, event[i], MAX_VALUE)) i++;
    return i;
}

/* ---- Form ---- */

#define NO_PLACE SIZE_MAX

static bool length_good(int32_t kind, int32_t length) {
    switch (kind) {
    case GATE_BOX: return within(3, length, 24) && length % 3 == 0;
    case GATE_POLYGON: return within(8, length, 514) && length % 2 == 0;
    case GATE_ELLIPSE:
    case GATE_DECIMAL_ELLIPSE: return length == ELLIPSE_LENGTH;
    case GATE_ELLIPSOID: return length == ELLIPSOID_LENGTH;
    case GATE_NOT: return length == 1;
    default: return within(2, length, 63);
    }
}

/* A region that an earlier step has set. */
static bool earlier(uint64_t set, int32_t region) { return within(0, region, MAX_STEPS - 1) && has(set, region); }

/* A dimension below n that differs from those at body[0], body[stride], .. before body[i]. */
static bool dimension_good(const int32_t *body, int i, int stride, int n) {
    if (!within(0, body[i], n - 1)) return false;
    for (int j = 0; j < i; j += stride) {
        if (body[j] == body[i]) return false;
    }
    return true;
}

static bool box_word_good(const int32_t *body, int i, int n) {
    switch (i % 3) {
    case 0: return dimension_good(body, i, 3, n);
    case 1: return within(MIN_VALUE, body[i], MAX_VALUE);
    default: return within(MIN_VALUE + 1, body[i], MAX_VALUE + 1) && body[i - 1] < body[i];
    }
}

static bool ellipse_word_good(const int32_t *body, int i, int n, int32_t max_entry, int32_t max_d2) {
    if (i < MEAN_X) return dimension_good(body, i, 1, n);
    if (i < C11) return within(MIN_VALUE, body[i], MAX_VALUE);
    if (i < D2) return within(-max_entry, body[i], max_entry);
    return within(1, body[i], max_d2);
}

/* Inlined by gcc it would move bits_of to where counting boxes is slower, by up to 10 %. */
__attribute__((noinline)) static bool ellipsoid_word_good(const int32_t *body, int i, int n) {
    if (i < MEANS_3) return dimension_good(body, i, 1, n);
    if (i < ENTRIES_3) return within(MIN_VALUE, body[i], MAX_VALUE);
    if (i < D2_3) return within(-MAX_ENTRY, body[i], MAX_ENTRY);
    return within(1, body[i], MAX_D2);
}

/* Word i of a body, by itself and by the words before it. */
static bool body_word_good(int32_t kind, const int32_t *body, int i, int n, uint64_t set) {
    switch (kind) {
    case GATE_BOX: return box_word_good(body, i, n);
    case GATE_POLYGON: return i < 2 ? dimension_good(body, i, 1, n) : within(MIN_VALUE, body[i], MAX_VALUE);
    case GATE_ELLIPSE: return ellipse_word_good(body, i, n, MAX_ENTRY, MAX_D2);
    case GATE_DECIMAL_ELLIPSE: return ellipse_word_good(body, i, n, MAX_DECIMAL_ENTRY, MAX_DECIMAL_D2);
    case GATE_ELLIPSOID: return ellipsoid_word_good(body, i, n);
    default: return body[i] >= 0 && earlier(set, body[i] / 2);
    }
}

static bool has_matrix(int32_t kind) { return kind == GATE_ELLIPSE || kind == GATE_DECIMAL_ELLIPSE; }

static bool matrix_good(const int32_t *body) {
    int64_t c11 = body[C11], c12 = body[C12], c22 = body[C22];
    return c11 > 0 && c11 * c22 > c12 * c12;
}

static bool matrix_3_good(const int32_t *body) {
    struct matrix c = matrix_of(body);
    return c.c11 > 0 && c.c11 * c.c22 > c.c12 * c.c12 && determinant(c) > 0;
}

/* The place of the lowest bad word, NO_PLACE in a plan of good form. */
static size_t bad_word(const int32_t *plan, size_t plan_len) {
    if (plan_len < 1 || !within(1, plan[0], 8)) return 0;
    if (plan_len < 2 || !within(0, plan[1], MAX_STEPS)) return 1;
    int n = plan[0], steps = plan[1];
    uint64_t set = 0;
    size_t at = 2;
    for (int s = 0; s < steps; s++) {
        const int32_t *step = plan + at, *body = step + HEADER;
        size_t left = plan_len - at;
        if (left <= KIND || !within(GATE_BOX, step[KIND], GATE_ELLIPSOID)) return at + KIND;
        if (left <= REGION || !within(0, step[REGION], steps - 1) || has(set, step[REGION])) return at + REGION;
        if (left <= PARENT || !(step[PARENT] == GATE_NO_PARENT || earlier(set, step[PARENT]))) return at + PARENT;
        if (left <= LENGTH || !length_good(step[KIND], step[LENGTH])) return at + LENGTH;
        int length = step[LENGTH];
        for (int i = 0; i < length; i++) {
            if (left <= (size_t)(HEADER + i)) return plan_len;
            if (!body_word_good(step[KIND], body, i, n, set)) return at + HEADER + i;
            if (has_matrix(step[KIND]) && i == C22 && !matrix_good(body)) return at + HEADER + C11;
            if (step[KIND] == GATE_ELLIPSOID && i == D2_3 - 1 && !matrix_3_good(body)) return at + HEADER + ENTRIES_3;
        }
        set |= (uint64_t)1 << step[REGION];
        at += HEADER + length;
    }
    return at < plan_len ? at : NO_PLACE;
}

/* ---- Answers ---- */

static bool refuse(uint64_t *out, enum gate_refusal refusal, size_t place) {
    out[GATE_OUT_REFUSAL] = refusal;
    out[GATE_OUT_PLACE] = place;
    return false;
}

/* Whether the plan passes; refusal and place are written where it doesn't. */
static bool passes(const int32_t *plan, size_t plan_len, uint64_t *out) {
    if (plan_len > GATE_MAX_WORDS) return refuse(out, GATE_LONG_PLAN, 0);
    size_t place = bad_word(plan, plan_len);
    return place == NO_PLACE || refuse(out, GATE_MALFORMED_PLAN, place);
}

void gate_check(const int32_t *plan, size_t plan_len, uint64_t out[2]) {
    memset(out, 0, GATE_CHECK_OUT * sizeof out[0]);
    passes(plan, plan_len, out);
}

void gate_judge(const int32_t *plan, size_t plan_len, const int32_t *event, size_t event_len, uint64_t out[4]) {
    memset(out, 0, GATE_JUDGE_OUT * sizeof out[0]);
    if (!passes(plan, plan_len, out)) return;
    int n = plan[0];
    if (event_len != (size_t)n) {
        refuse(out, GATE_RAGGED, event_len);
        return;
    }
    int i = first_spoilt(event, n);
    if (i < n) {
        refuse(out, GATE_SPOILT, i);
        return;
    }
    out[GATE_OUT_BITS] = bits_of(plan, event);
    out[GATE_OUT_OUTLINE] = outline_of(plan, event, out[GATE_OUT_BITS]);
}

void gate_count(const int32_t *plan, size_t plan_len, const int32_t *events, size_t events_len, uint64_t out[69]) {
    memset(out, 0, GATE_COUNT_OUT * sizeof out[0]);
    if (!passes(plan, plan_len, out)) return;
    int n = plan[0], steps = plan[1];
    if (events_len % n != 0) {
        refuse(out, GATE_RAGGED, events_len);
        return;
    }
    uint64_t taken = 0, spoilt = 0, unclaimed = 0, counts[GATE_REGIONS] = {0};
    for (size_t i = 0; i < events_len; i += n) {
        const int32_t *event = events + i;
        if (first_spoilt(event, n) < n) {
            spoilt++;
        } else {
            uint64_t bits = bits_of(plan, event);
            taken++;
            unclaimed += bits == 0;
            for (int r = 0; r < steps; r++) counts[r] += bits >> r & 1;
        }
    }
    out[GATE_OUT_TAKEN] = taken;
    out[GATE_OUT_SPOILT_COUNT] = spoilt;
    memcpy(out + GATE_OUT_COUNTS, counts, sizeof counts);
    out[GATE_OUT_UNCLAIMED] = unclaimed;
}
