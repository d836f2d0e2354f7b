/* Plans and events for the comparisons: fixed loads for timing, random ones for agreement. */
#include "plans.h"

#include <math.h>

enum { MIN_VALUE = -65536, MAX_VALUE = 65535, VALUES = 131072, FULL_REACH = 65536, MAX_ENTRY = 16777216, MAX_D2 = 4096 };
enum { MAX_DECIMAL_ENTRY = 2000000000, MAX_DECIMAL_D2 = 4096000 }; /* thousandths */
enum { MAX_VERTICES = 256, MAX_OPERANDS = 63 };

/* ---- Random numbers ---- */

struct random seeded(uint64_t seed) {
    struct random random = {seed * 0x9E3779B97F4A7C15u};
    return random;
}

uint64_t below(struct random *random, uint64_t limit) {
    uint64_t x = random->state; /* xorshift64* */
    x ^= x >> 12;
    x ^= x << 25;
    x ^= x >> 27;
    random->state = x;
    return (x * 0x2545F4914F6CDD1Du >> 16) % limit;
}

static bool one_in(struct random *random, uint64_t limit) { return below(random, limit) == 0; }

int32_t from_to(struct random *random, int32_t low, int32_t high) {
    return (int32_t)(low + (int64_t)below(random, (uint64_t)((int64_t)high - low + 1)));
}

static int32_t any_value(struct random *random) { return from_to(random, MIN_VALUE, MAX_VALUE); }

/* ---- Writing a plan ---- */

static void add_word(struct plan *plan, int32_t word) { plan->words[plan->len++] = word; }

static void begin_plan(struct plan *plan, int n, int steps) {
    plan->len = 0;
    plan->steps = 0;
    plan->reach = FULL_REACH;
    add_word(plan, n);
    add_word(plan, steps);
}

/* The header of a step; end_step puts its body length in. */
static void begin_step(struct plan *plan, enum gate_kind kind, int32_t region, int32_t parent) {
    plan->step_at[plan->steps++] = plan->len;
    add_word(plan, kind);
    add_word(plan, region);
    add_word(plan, parent);
    add_word(plan, 0);
}

static void end_step(struct plan *plan) {
    size_t at = plan->step_at[plan->steps - 1];
    plan->words[at + 3] = (int32_t)(plan->len - at - 4);
}

/* ---- Loads for timing ---- */

/* The body of a box over `triples` dimensions that holds half of the even events. */
static void half_box(struct random *random, struct plan *plan, int n, int first, int triples) {
    int32_t width = (int32_t)(VALUES * pow(0.5, 1.0 / triples));
    for (int i = 0; i < triples; i++) {
        int32_t min = from_to(random, MIN_VALUE, MAX_VALUE + 1 - width);
        add_word(plan, (first + i) % n);
        add_word(plan, min);
        add_word(plan, min + width);
    }
}

void boxes_load(struct plan *plan, int n, int count, bool parents) {
    struct random random = seeded(1);
    begin_plan(plan, n, count);
    for (int i = 0; i < count; i++) {
        begin_step(plan, GATE_BOX, i, parents && i > 0 ? (i - 1) / 2 : GATE_NO_PARENT);
        half_box(&random, plan, n, i, n);
        end_step(plan);
    }
}

void combinations_load(struct plan *plan, int n) {
    struct random random = seeded(2);
    begin_plan(plan, n, GATE_REGIONS);
    for (int i = 0; i < GATE_REGIONS; i++) {
        static const enum gate_kind turn[] = {GATE_BOX, GATE_AND, GATE_OR, GATE_NOT};
        enum gate_kind kind = i < 4 ? GATE_BOX : turn[i % 4];
        begin_step(plan, kind, i, i == 0 || one_in(&random, 2) ? GATE_NO_PARENT : from_to(&random, 0, i - 1));
        if (kind == GATE_BOX) {
            half_box(&random, plan, n, i, from_to(&random, 1, n));
        } else {
            int operands = kind == GATE_NOT ? 1 : from_to(&random, 2, 4);
            for (int j = 0; j < operands; j++) add_word(plan, from_to(&random, 0, 2 * i - 1));
        }
        end_step(plan);
    }
}

static void begin_polygon(struct plan *plan) {
    begin_plan(plan, 2, 1);
    begin_step(plan, GATE_POLYGON, 0, GATE_NO_PARENT);
    add_word(plan, 0);
    add_word(plan, 1);
}

/* The vertex that is `part` of `parts` of a full turn away from the right. */
static void add_vertex(struct plan *plan, double part, int parts, double radius) {
    double angle = 2 * acos(-1.0) * part / parts;
    add_word(plan, (int32_t)(radius * cos(angle)));
    add_word(plan, (int32_t)(radius * sin(angle)));
}

static void add_star(struct random *random, struct plan *plan, int vertices, int32_t reach) {
    for (int i = 0; i < vertices; i++) add_vertex(plan, i, vertices, from_to(random, reach / 2, reach));
}

void polygon_load(struct plan *plan, int vertices) {
    struct random random = seeded(5);
    begin_polygon(plan);
    add_star(&random, plan, vertices, 60000);
    end_step(plan);
}

void outline_load(struct plan *plan, enum polygon_outline outline, int vertices) {
    enum { REACH = 30000 };
    const double turned = 0.3; /* by this part of an edge no edge is level and no two vertices are of one height */
    struct random random = seeded(8);
    begin_polygon(plan);
    switch (outline) {
    case CONVEX:
        for (int i = 0; i < vertices; i++) add_vertex(plan, i + turned, vertices, REACH);
        break;
    case STAR: add_star(&random, plan, vertices, REACH); break;
    case RANDOM:
        for (int i = 0; i < 2 * vertices; i++) add_word(plan, from_to(&random, -REACH, REACH));
    }
    end_step(plan);
}

/* Ellipses, tilted this way and that; a decimal one has its entries in a scale that takes 128 bits. */
static void ovals(struct plan *plan, int count, enum gate_kind kind, uint64_t seed, int32_t scale, int32_t distance) {
    struct random random = seeded(seed);
    begin_plan(plan, 2, count);
    for (int i = 0; i < count; i++) {
        begin_step(plan, kind, i, GATE_NO_PARENT);
        add_word(plan, 0);
        add_word(plan, 1);
        add_word(plan, from_to(&random, -8000, 8000));
        add_word(plan, from_to(&random, -8000, 8000));
        add_word(plan, from_to(&random, 2500000 * scale, 3500000 * scale));
        add_word(plan, from_to(&random, -1000000 * scale, 1000000 * scale));
        add_word(plan, from_to(&random, 2500000 * scale, 3500000 * scale));
        add_word(plan, distance);
        end_step(plan);
    }
}

void ellipses_load(struct plan *plan, int count) {
    ovals(plan, count, GATE_ELLIPSE, 4, 1, 1024);
}

void decimal_ellipses_load(struct plan *plan, int count) {
    ovals(plan, count, GATE_DECIMAL_ELLIPSE, 7, 500, 2048500);
}

void ellipsoids_load(struct plan *plan, int count) {
    struct random random = seeded(9);
    begin_plan(plan, 3, count);
    for (int i = 0; i < count; i++) {
        begin_step(plan, GATE_ELLIPSOID, i, GATE_NO_PARENT);
        for (int dimension = 0; dimension < 3; dimension++) add_word(plan, dimension);
        for (int mean = 0; mean < 3; mean++) add_word(plan, from_to(&random, -8000, 8000));
        for (int row = 0; row < 3; row++) {
            add_word(plan, from_to(&random, 3500000, 4500000));
            for (int column = row + 1; column < 3; column++) add_word(plan, from_to(&random, -1000000, 1000000));
        }
        add_word(plan, 1024);
        end_step(plan);
    }
}

void even_events(int32_t *events, int n, size_t count) {
    struct random random = seeded(3);
    for (size_t i = 0; i < count * n; i++) events[i] = any_value(&random);
    spoil_events(events, n, count);
}

void spoil_events(int32_t *events, int n, size_t count) {
    for (size_t i = 0; i < count; i += 100) events[i * n] = 70000;
}

/* ---- Random plans ---- */

/* A number within the plan's reach; in a plan of full reach often at an end. */
static int32_t near_value(struct random *random, const struct plan *plan) {
    static const int32_t ends[] = {MIN_VALUE, MIN_VALUE + 1, MAX_VALUE - 1, MAX_VALUE};
    if (plan->reach == FULL_REACH && one_in(random, 8)) return ends[below(random, 4)];
    return from_to(random, -plan->reach, plan->reach - 1);
}

/* The numbers from 0 to count - 1, shuffled. */
static void shuffled(struct random *random, int32_t *order, int count) {
    for (int i = 0; i < count; i++) {
        int j = (int)below(random, (uint64_t)i + 1);
        order[i] = order[j];
        order[j] = i;
    }
}

static void random_box(struct random *random, struct plan *plan, int n) {
    int32_t dimensions[8];
    shuffled(random, dimensions, n);
    int triples = from_to(random, 1, n);
    for (int i = 0; i < triples; i++) {
        int32_t a = near_value(random, plan), b = near_value(random, plan);
        add_word(plan, dimensions[i]);
        add_word(plan, one_in(random, 6) ? MIN_VALUE : a < b ? a : b);
        add_word(plan, one_in(random, 6) ? MAX_VALUE + 1 : (a < b ? b : a) + 1);
    }
}

/* Dimensions that differ. */
static void random_dimensions(struct random *random, struct plan *plan, int n, int count) {
    int32_t dimensions[8];
    shuffled(random, dimensions, n);
    for (int i = 0; i < count; i++) add_word(plan, dimensions[i]);
}

/* Any vertices: outlines cross themselves, and edges are often level or upright. */
static void random_polygon(struct random *random, struct plan *plan, int n) {
    int vertices = one_in(random, 20) ? from_to(random, 253, MAX_VERTICES) : from_to(random, 3, 12);
    random_dimensions(random, plan, n, 2);
    for (int i = 0; i < vertices; i++) {
        bool upright = i > 0 && one_in(random, 4), level = i > 0 && one_in(random, 4);
        int32_t x = upright ? plan->words[plan->len - 2] : near_value(random, plan);
        int32_t y = level ? plan->words[plan->len - 1] : near_value(random, plan);
        add_word(plan, x);
        add_word(plan, y);
    }
}

/*
 * With c11 = a^2, c12 = a b, c22 = b^2 + f^2 and D = d the whole points (d a, d b) and (0, d f) from the mean lie on
 * the rim. Entries of greatest size are tried too.
 */
static void random_ellipse(struct random *random, struct plan *plan, int n) {
    bool small = plan->reach < FULL_REACH;
    int32_t a = from_to(random, 1, small ? 8 : 4096), d = from_to(random, 1, small ? 8 : 16);
    int32_t b = small ? from_to(random, -8, 8) : from_to(random, -2800, 2800);
    int32_t f = from_to(random, 1, small ? 8 : 2800);
    bool greatest = one_in(random, 8);
    random_dimensions(random, plan, n, 2);
    add_word(plan, near_value(random, plan));
    add_word(plan, near_value(random, plan));
    add_word(plan, greatest ? MAX_ENTRY : a * a);
    add_word(plan, greatest ? (MAX_ENTRY - 1) * from_to(random, -1, 1) : a * b);
    add_word(plan, greatest ? MAX_ENTRY : b * b + f * f);
    add_word(plan, greatest ? MAX_D2 : d * d);
}

/* The four words that a decimal ellipse has in thousandths. */
struct thousandths {
    int32_t c11, c12, c22, d2;
};

/*
 * With c11 = k a^2, c12 = k a b, c22 = k (b^2 + f^2) and k D^2 = 1000^2 t^2 the whole points (t a, t b) and (0, t f)
 * from the mean lie on the rim.
 */
static struct thousandths rim_thousandths(struct random *random, bool small) {
    static const int32_t divisors[] = {1, 2, 5, 8, 10, 20, 25, 64, 100, 125, 400, 1000, 2500, 8000, 15625, 100000, 1000000};
    int32_t k = divisors[below(random, sizeof divisors / sizeof divisors[0])], d2 = 1000000 / k;
    int32_t greatest = (int32_t)sqrt(MAX_DECIMAL_ENTRY / k), half = (int32_t)sqrt(MAX_DECIMAL_ENTRY / 2 / k);
    int32_t farthest = (int32_t)sqrt(MAX_DECIMAL_D2 / d2);
    int32_t a = from_to(random, 1, small ? 8 : greatest), f = from_to(random, 1, small ? 8 : half);
    int32_t b = one_in(random, 4) ? 0 : small ? from_to(random, -8, 8) : from_to(random, -half, half);
    int32_t t = from_to(random, 1, small && farthest > 8 ? 8 : farthest);
    return (struct thousandths){k * a * a, k * a * b, k * (b * b + f * f), d2 * t * t};
}

/* A size of any order. */
static int32_t any_size(struct random *random, int32_t greatest) {
    static const int32_t parts[] = {1, 10, 1000, 1000000};
    int32_t most = greatest / parts[below(random, 4)];
    return from_to(random, 1, most == 0 ? 1 : most);
}

/* Any numbers that make a good matrix; c12 is often as large as it may be. */
static struct thousandths any_thousandths(struct random *random) {
    int32_t c11 = any_size(random, MAX_DECIMAL_ENTRY), c22 = any_size(random, MAX_DECIMAL_ENTRY);
    int64_t product = (int64_t)c11 * c22;
    int32_t most = (int32_t)sqrt((double)product);
    while ((int64_t)most * most >= product) most--;
    int32_t c12 = one_in(random, 3) ? most * (one_in(random, 2) ? 1 : -1) : from_to(random, -most, most);
    return (struct thousandths){c11, c12, c22, any_size(random, MAX_DECIMAL_D2)};
}

static void random_decimal_ellipse(struct random *random, struct plan *plan, int n) {
    struct thousandths words = rim_thousandths(random, plan->reach < FULL_REACH);
    if (one_in(random, 3)) words = any_thousandths(random);
    if (one_in(random, 8)) {
        words = (struct thousandths){MAX_DECIMAL_ENTRY, (MAX_DECIMAL_ENTRY - 1) * from_to(random, -1, 1),
                                     MAX_DECIMAL_ENTRY, MAX_DECIMAL_D2};
    }
    random_dimensions(random, plan, n, 2);
    add_word(plan, near_value(random, plan));
    add_word(plan, near_value(random, plan));
    add_word(plan, words.c11);
    add_word(plan, words.c12);
    add_word(plan, words.c22);
    add_word(plan, words.d2);
}

/* The matrix of an ellipsoid; products of three entries pass 64 bits. */
typedef __int128 wide;

struct matrix {
    wide c11, c12, c13, c22, c23, c33;
};

static wide upper_determinant(const struct matrix *c) { return c->c11 * c->c22 - c->c12 * c->c12; }

/* The whole determinant is c33 times the upper left one, less this. */
static wide part_without_c33(const struct matrix *c) {
    return c->c13 * c->c13 * c->c22 - 2 * c->c12 * c->c13 * c->c23 + c->c23 * c->c23 * c->c11;
}

static bool is_good(const struct matrix *c) {
    return c->c11 > 0 && upper_determinant(c) > 0 && c->c33 * upper_determinant(c) > part_without_c33(c);
}

/*
 * With rows (a, 0, 0), (b, f, 0), (g, h, k) of a matrix L, L times its transpose is good, and L u from the mean lies on
 * the rim where the squares of the whole numbers u add up to D^2.
 */
static struct matrix rim_matrix(struct random *random, int32_t most) {
    bool upright = one_in(random, 4);
    int32_t a = from_to(random, 1, most), f = from_to(random, 1, most), k = from_to(random, 1, most);
    int32_t b = upright ? 0 : from_to(random, -most, most), g = upright ? 0 : from_to(random, -most, most);
    int32_t h = upright ? 0 : from_to(random, -most, most);
    return (struct matrix){a * a, a * b, a * g, b * b + f * f, b * g + f * h, g * g + h * h + k * k};
}

/* Up to `most` either way, often as much. */
static int32_t any_entry(struct random *random, int32_t most) {
    return one_in(random, 4) ? most * (one_in(random, 2) ? 1 : -1) : from_to(random, -most, most);
}

/* Any numbers that make a good matrix; c33 is often as small as it may be. */
static struct matrix any_matrix(struct random *random) {
    struct matrix c;
    do {
        int32_t c11 = any_size(random, MAX_ENTRY), c22 = any_size(random, MAX_ENTRY), c33 = any_size(random, MAX_ENTRY);
        int32_t c12 = any_entry(random, (int32_t)sqrt((double)c11 * c22));
        int32_t c13 = any_entry(random, (int32_t)sqrt((double)c11 * c33));
        int32_t c23 = any_entry(random, (int32_t)sqrt((double)c22 * c33));
        c = (struct matrix){c11, c12, c13, c22, c23, c33};
    } while (!is_good(&c));
    if (one_in(random, 2)) c.c33 = part_without_c33(&c) / upper_determinant(&c) + 1;
    return c;
}

/* Greatest entries: upright, as narrow as can be, or as flat, which makes the greatest sums. */
static struct matrix greatest_matrix(struct random *random) {
    static const int32_t others[] = {0, MAX_ENTRY - 1, -(MAX_ENTRY / 2 - 1)};
    int32_t other = others[below(random, 3)], x = one_in(random, 2) ? 1 : -1, y = one_in(random, 2) ? 1 : -1;
    return (struct matrix){MAX_ENTRY, other * x, other * y, MAX_ENTRY, other * x * y, MAX_ENTRY};
}

static void random_ellipsoid(struct random *random, struct plan *plan, int n) {
    bool small = plan->reach < FULL_REACH, far = one_in(random, 4);
    int32_t most = small ? 8 : far ? 500 : 2300, parts = small ? 4 : far ? 36 : 8;
    struct matrix c = rim_matrix(random, most);
    int32_t p = from_to(random, 1, parts), q = from_to(random, 0, parts), r = from_to(random, 0, parts);
    int32_t d2 = p * p + q * q + r * r;
    if (one_in(random, 3)) {
        c = any_matrix(random);
        d2 = any_size(random, MAX_D2);
    } else if (one_in(random, 8)) {
        c = greatest_matrix(random);
        d2 = MAX_D2;
    }
    random_dimensions(random, plan, n, 3);
    for (int mean = 0; mean < 3; mean++) add_word(plan, near_value(random, plan));
    const wide entries[] = {c.c11, c.c12, c.c13, c.c22, c.c23, c.c33};
    for (int i = 0; i < 6; i++) add_word(plan, (int32_t)entries[i]);
    add_word(plan, d2);
}

/* Operands among the regions of the steps before. */
static void random_operands(struct random *random, struct plan *plan, int count) {
    for (int i = 0; i < count; i++) {
        size_t step = plan->step_at[below(random, plan->steps - 1)];
        add_word(plan, 2 * plan->words[step + 1] + from_to(random, 0, 1));
    }
}

static void random_step(struct random *random, struct plan *plan, int n, int32_t region, bool room) {
    bool first = plan->steps == 0;
    enum gate_kind kind = (enum gate_kind)from_to(random, GATE_BOX, GATE_ELLIPSOID);
    bool needs_two = kind == GATE_POLYGON || kind == GATE_ELLIPSE || kind == GATE_DECIMAL_ELLIPSE;
    bool needs_other = kind == GATE_AND || kind == GATE_OR || kind == GATE_NOT;
    if (!room || (needs_two && n < 2) || (kind == GATE_ELLIPSOID && n < 3) || (needs_other && first)) kind = GATE_BOX;
    int32_t parent = GATE_NO_PARENT;
    if (!first && one_in(random, 2)) parent = plan->words[plan->step_at[below(random, plan->steps)] + 1];
    begin_step(plan, kind, region, parent);
    switch (kind) {
    case GATE_BOX: random_box(random, plan, n); break;
    case GATE_POLYGON: random_polygon(random, plan, n); break;
    case GATE_ELLIPSE: random_ellipse(random, plan, n); break;
    case GATE_DECIMAL_ELLIPSE: random_decimal_ellipse(random, plan, n); break;
    case GATE_ELLIPSOID: random_ellipsoid(random, plan, n); break;
    case GATE_NOT: random_operands(random, plan, 1); break;
    default:
        random_operands(random, plan, one_in(random, 10) ? from_to(random, 60, MAX_OPERANDS) : from_to(random, 2, 5));
    }
    end_step(plan);
}

void random_plan(struct random *random, struct plan *plan) {
    static const int32_t reaches[] = {4, 100, FULL_REACH};
    enum { LONGEST_STEP = 518, LONGEST_BOX = 28 };
    int n = from_to(random, 1, 8);
    int steps = one_in(random, 16) ? GATE_REGIONS : from_to(random, 0, 12);
    int32_t regions[GATE_REGIONS];
    begin_plan(plan, n, steps);
    plan->reach = reaches[below(random, 3)];
    shuffled(random, regions, steps);
    for (int i = 0; i < steps; i++) {
        bool room = plan->len + LONGEST_STEP + (size_t)(steps - i) * LONGEST_BOX <= GATE_MAX_WORDS;
        random_step(random, plan, n, regions[i], room);
    }
}

/* ---- Damage ---- */

/* Numbers at which some rule of form changes its answer. */
static int32_t edge_word(struct random *random) {
    static const int32_t edges[] = {
        INT32_MIN, -2000000001, -2000000000, -16777217, -16777216, -65537, -65536, -65535, -2, -1, 0, 1, 2, 3, 4, 5, 6,
        7, 8, 9, 13, 24, 27, 63, 64, 65, 127, 128, 129, 514, 516, 4096, 4097, 65535, 65536, 65537, 4096000, 4096001,
        16777216, 16777217, 2000000000, 2000000001, INT32_MAX,
    };
    return edges[below(random, sizeof edges / sizeof edges[0])];
}

/* A place in the plan; half of the time within the first words of a step. */
static size_t random_place(struct random *random, const struct plan *plan) {
    if (plan->steps > 0 && one_in(random, 2)) {
        size_t place = plan->step_at[below(random, plan->steps)] + below(random, 17);
        if (place < plan->len) return place;
    }
    return below(random, plan->len);
}

static void change_word(struct random *random, struct plan *plan) {
    if (plan->len == 0) return;
    int32_t *word = &plan->words[random_place(random, plan)];
    switch (below(random, 4)) {
    case 0: *word = edge_word(random); break;
    case 1: *word = plan->words[random_place(random, plan)]; break;
    case 2: *word += *word < INT32_MAX; break;
    default: *word -= *word > INT32_MIN;
    }
}

/* A body length, by up to 3; the body stays. */
static void change_length(struct random *random, struct plan *plan) {
    if (plan->steps == 0) return;
    size_t place = plan->step_at[below(random, plan->steps)] + 3;
    bool good = place < plan->len && 0 < plan->words[place] && plan->words[place] <= GATE_MAX_WORDS;
    if (good) plan->words[place] += from_to(random, -3, 3);
}

static void negate(int32_t *word) { *word = *word == INT32_MIN ? INT32_MIN : -*word; }

/* Of an ellipse: its sign, or c22 such that the determinant is 0. */
static void change_ellipse(struct random *random, int32_t *body, int32_t max_entry) {
    if (body[4] <= 0) return;
    if (one_in(random, 2)) {
        int64_t c22 = (int64_t)body[5] * body[5] / body[4];
        if (c22 <= max_entry) body[6] = (int32_t)c22;
    } else {
        for (int i = 4; i < 7; i++) negate(&body[i]);
    }
}

/*
 * Of an ellipsoid: its sign; the signs of two entries on the diagonal, with which an upright one's determinant stays above
 * 0; c33 such that the determinant is 0 or little less; c22 such that the upper left one is; c33 below its range.
 */
static void change_ellipsoid(struct random *random, int32_t *body) {
    int32_t *entries = body + 6, *diagonal[] = {&entries[0], &entries[3], &entries[5]};
    struct matrix c = {entries[0], entries[1], entries[2], entries[3], entries[4], entries[5]};
    if (!is_good(&c)) return;
    switch (below(random, 5)) {
    case 0:
        for (int i = 0; i < 6; i++) negate(&entries[i]);
        break;
    case 1: {
        size_t kept = below(random, 3);
        for (size_t i = 0; i < 3; i++) {
            if (i != kept) negate(diagonal[i]);
        }
        break;
    }
    case 2: entries[5] = (int32_t)(part_without_c33(&c) / upper_determinant(&c)); break;
    case 3: entries[3] = (int32_t)(c.c12 * c.c12 / c.c11); break;
    default: entries[5] = -MAX_ENTRY - 1;
    }
}

/* The matrix of some step, where it is an ellipse or ellipsoid. */
static void change_matrix(struct random *random, struct plan *plan) {
    if (plan->steps == 0) return;
    size_t at = plan->step_at[below(random, plan->steps)], left = at < plan->len ? plan->len - at : 0;
    int32_t kind = plan->words[at], *body = plan->words + at + 4;
    if (kind == GATE_ELLIPSE && left >= 12) change_ellipse(random, body, MAX_ENTRY);
    if (kind == GATE_DECIMAL_ELLIPSE && left >= 12) change_ellipse(random, body, MAX_DECIMAL_ENTRY);
    if (kind == GATE_ELLIPSOID && left >= 17) change_ellipsoid(random, body);
}

void damage(struct random *random, struct plan *plan) {
    int faults = from_to(random, 1, 3);
    for (int i = 0; i < faults; i++) {
        switch (below(random, 12)) {
        case 0: plan->len = below(random, plan->len + 1); break;
        case 1:
            if (plan->len < PLAN_ROOM) add_word(plan, edge_word(random));
            break;
        case 2:
            if (one_in(random, 4)) {
                size_t len = GATE_MAX_WORDS + below(random, 3);
                while (plan->len < len) add_word(plan, edge_word(random));
            }
            break;
        case 3: change_length(random, plan); break;
        case 4: change_matrix(random, plan); break;
        default: change_word(random, plan);
        }
    }
}

/* ---- Random events ---- */

static int32_t greatest_divisor(int32_t a, int32_t b) {
    while (b != 0) {
        int32_t rest = a % b;
        a = b;
        b = rest;
    }
    return a < 0 ? -a : a;
}

static void set_on_bound(struct random *random, const int32_t *body, size_t length, int32_t *event) {
    for (size_t i = 0; i < length; i += 3) event[body[i]] = body[i + 1 + below(random, 2)] - from_to(random, 0, 1);
}

/* A whole point of some edge, its ends included. */
static void set_on_edge(struct random *random, const int32_t *body, size_t length, int32_t *event) {
    size_t vertices = (length - 2) / 2, i = below(random, vertices);
    const int32_t *from = body + 2 + 2 * i, *to = body + 2 + 2 * ((i + 1) % vertices);
    int32_t dx = to[0] - from[0], dy = to[1] - from[1], parts = greatest_divisor(dx, dy);
    int32_t part = parts == 0 ? 0 : from_to(random, 0, parts);
    event[body[0]] = from[0] + (parts == 0 ? 0 : dx / parts * part);
    event[body[1]] = from[1] + (parts == 0 ? 0 : dy / parts * part);
}

/*
 * One of the points that random_ellipse and rim_thousandths name, where the ellipse is theirs; else one near the rim. From
 * the mean they are dx = sqrt(c11 D^2), dy = c12 dx / c11 and 0, sqrt(D^2 (c11 c22 - c12^2) / c11), and those opposite.
 * `scale` is 1000 where the numbers are in thousandths, else 1.
 */
static void set_on_rim(struct random *random, const int32_t *body, int32_t scale, int32_t *event) {
    int64_t c11 = body[4], c12 = body[5], c22 = body[6], d2 = body[7];
    int32_t dx = (int32_t)(sqrt((double)(c11 * d2)) / scale), dy = (int32_t)(c12 * dx / c11);
    if (one_in(random, 2)) {
        dx = 0;
        dy = (int32_t)(sqrt((double)((c11 * c22 - c12 * c12) / c11 * d2)) / scale);
    }
    int32_t sign = one_in(random, 2) ? 1 : -1;
    event[body[0]] = body[2] + sign * dx;
    event[body[1]] = body[3] + sign * dy;
}

/* Three whole numbers whose squares add up to `sum`; where there are none, its root and zeros. */
static void find_squares(struct random *random, int32_t sum, double *roots) {
    int32_t most = (int32_t)sqrt(sum), from = from_to(random, 0, most);
    for (int32_t i = 0; i <= most; i++) {
        int32_t p = (from + i) % (most + 1);
        for (int32_t q = 0; q * q <= sum - p * p; q++) {
            int32_t rest = sum - p * p - q * q, r = (int32_t)sqrt(rest);
            if (r * r != rest) continue;
            roots[0] = p;
            roots[1] = q;
            roots[2] = r;
            return;
        }
    }
    roots[0] = sqrt(sum);
    roots[1] = roots[2] = 0;
}

/* One of the points that rim_matrix names, where the ellipsoid is its own; else one near the rim. */
static void set_on_ellipsoid(struct random *random, const int32_t *body, int32_t *event) {
    double c11 = body[6], c12 = body[7], c13 = body[8], c22 = body[9], c23 = body[10], c33 = body[11], squares[3], u[3];
    double a = sqrt(c11), b = c12 / a, g = c13 / a;
    double f = sqrt(fmax(c22 - b * b, 0)), h = f > 0 ? (c23 - b * g) / f : 0, k = sqrt(fmax(c33 - g * g - h * h, 0));
    int32_t order[3];
    find_squares(random, body[12], squares);
    shuffled(random, order, 3);
    for (int i = 0; i < 3; i++) u[i] = one_in(random, 2) ? squares[order[i]] : -squares[order[i]];
    const double offsets[] = {a * u[0], b * u[0] + f * u[1], g * u[0] + h * u[1] + k * u[2]};
    for (int i = 0; i < 3; i++) event[body[i]] = (int32_t)(body[3 + i] + offsets[i]);
}

/* Puts the event on a bound, an edge or the rim of some step; false when that step has none. */
static bool aim(struct random *random, const struct plan *plan, int32_t *event) {
    const int32_t *step = plan->words + plan->step_at[below(random, plan->steps)], *body = step + 4;
    switch (step[0]) {
    case GATE_BOX: set_on_bound(random, body, (size_t)step[3], event); return true;
    case GATE_POLYGON: set_on_edge(random, body, (size_t)step[3], event); return true;
    case GATE_ELLIPSE: set_on_rim(random, body, 1, event); return true;
    case GATE_DECIMAL_ELLIPSE: set_on_rim(random, body, 1000, event); return true;
    case GATE_ELLIPSOID: set_on_ellipsoid(random, body, event); return true;
    default: return false;
    }
}

bool random_event(struct random *random, const struct plan *plan, int32_t *event) {
    static const int32_t beyond[] = {INT32_MIN, MIN_VALUE - 1, MAX_VALUE + 1, INT32_MAX};
    int n = plan->words[0];
    for (int i = 0; i < n; i++) event[i] = near_value(random, plan);
    bool aimed = plan->steps > 0 && !one_in(random, 3) && aim(random, plan, event);
    bool moved = one_in(random, 3);
    if (moved) event[below(random, n)] += one_in(random, 2) ? 1 : -1;
    if (one_in(random, 24)) event[below(random, n)] = beyond[below(random, 4)];
    return aimed && !moved;
}
