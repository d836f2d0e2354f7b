/*
 * timing NAME=LIB.so .. [--boost=LIB.so] [--java=CLASSES] [--table=PATH ..]: times the proved counter, which is named
 * first, and the other libraries in turn on the same plans and events, best of the rounds, and prints its time as a
 * part of theirs. A table is PATH.plan and PATH.events.
 * Environment: EVENTS (1000000), ROUNDS (7), ONLY (polygons: those two tables alone; all).
 */
#include "contenders.h"
#include "fail.h"
#include "limit.h"
#include "loads.h"
#include "targets.h"

#include <inttypes.h>
#include <signal.h>
#include <string.h>

/* The loads of even events. */
static const struct shape shapes[] = {
    {BOXES, "1 box", 2, 1},
    {CHAINS, "8 boxes with parents", 2, 8},
    {COMBINATIONS, "64 steps box, and, or, not", 2, 64},
    {BOXES, "64 boxes", 2, 64},
    {BOXES, "1 box", 8, 1},
    {CHAINS, "8 boxes with parents", 8, 8},
    {COMBINATIONS, "64 steps box, and, or, not", 8, 64},
    {BOXES, "64 boxes", 8, 64},
    {POLYGONS, "8 vertices", 2, 8},
    {POLYGONS, "64 vertices", 2, 64},
    {POLYGONS, "256 vertices", 2, 256},
    {ELLIPSES, "1 ellipse", 2, 1},
    {ELLIPSES, "8 ellipses", 2, 8},
    {DECIMAL_ELLIPSES, "1 decimal ellipse", 2, 1},
    {DECIMAL_ELLIPSES, "8 decimal ellipses", 2, 8},
    {ELLIPSOIDS, "1 ellipsoid", 3, 1},
    {ELLIPSOIDS, "8 ellipsoids", 3, 8},
};
enum { SHAPES = sizeof shapes / sizeof shapes[0] };

enum { MAX_TABLES = 16 };
static const char *tables[MAX_TABLES]; /* paths */
static int table_count;

static struct load load; /* the one that is timed */

/* ---- Timing ---- */

/* The time of a library that took no part. */
#define UNTIMED 1e300

static int rounds;
static double best[MAX_CONTENDERS]; /* nanoseconds per event */
static uint64_t answers[MAX_CONTENDERS][GATE_COUNT_OUT];

static bool takes_part(const struct contender *contender, unsigned groups) { return (contender->groups & groups) != 0; }

/* The numbers of a counter's answer, fewer of an earlier one; single calls have no row longer than that of gate_judge. */
static size_t out_length(int contender) {
    return load.group == CALLS ? contenders[contender].library.judge_out : contenders[contender].library.count_out;
}

/* Whether its answer is the one that it owes. Boost's and Java's may differ, which is printed below the row. */
static bool agrees(int contender) {
    const uint64_t *answer = answers[contender], *proved = answers[0];
    switch (contenders[contender].kind) {
    case COUNTER: return memcmp(answer, proved, out_length(contender) * sizeof answer[0]) == 0;
    case ONE_PASS: return answer[GATE_OUT_SPOILT_COUNT] == proved[GATE_OUT_SPOILT_COUNT];
    case HEIGHTS:
        return answer[0] == searched_heights_above(vertices(&load), vertices_len(&load), load.events, load.count);
    default: return true;
    }
}

static void demand_agreement(int contender) {
    if (agrees(contender)) return;
    const char *other = contenders[contender].kind == HEIGHTS ? "a search among the heights" : contenders[0].name;
    fprintf(stderr, "%s: %s and %s differ\n", load.label, other, contenders[contender].name);
    exit(1);
}

/* The first `number` of the contenders that take part make passes over the load in turn. */
static void time_load(pass_function *pass, int number) {
    memset(answers, 0, sizeof answers);
    for (int i = 0; i < contender_count; i++) best[i] = UNTIMED;
    for (int i = 0; i < number; i++) {
        if (takes_part(&contenders[i], load.group)) begin_passes(&contenders[i], &load);
    }
    for (int round = 0; round < rounds; round++) {
        for (int i = 0; i < number; i++) {
            if (!takes_part(&contenders[i], load.group)) continue;
            double time = pass(&contenders[i], &load, answers[i]) / load.count;
            if (time < best[i]) best[i] = time;
        }
    }
    for (int i = 0; i < number; i++) {
        if (!takes_part(&contenders[i], load.group)) continue;
        end_passes(&contenders[i]);
        demand_agreement(i);
    }
    if (load.group != CALLS && answers[0][GATE_OUT_REFUSAL] != GATE_PASSES) fail(load.label, "refused");
}

/* ---- Tables ---- */

static void print_heading(const char *title, const char *unit, unsigned groups) {
    printf("\n%s: nanoseconds per %s, best of %d rounds; (proved / that library)\n\n", title, unit, rounds);
    printf("%-34s %6s %8s %9s", "plan", "words", "members", contenders[0].name);
    for (int i = 1; i < contender_count; i++) {
        if (takes_part(&contenders[i], groups)) printf(" %18s", contenders[i].name);
    }
    printf("\n");
}

static void print_times(void) {
    printf(" %9.2f", best[0]);
    for (int i = 1; i < contender_count; i++) {
        char ratio[32];
        if (best[i] == UNTIMED) continue;
        snprintf(ratio, sizeof ratio, "(%.2f)", best[0] / best[i]);
        printf(" %9.2f %8s", best[i], ratio);
    }
    printf("\n");
}

/* How many more events a library has inside than the proved counter, where it has; limits count no events inside. */
static void print_difference(int contender) {
    enum contender_kind kind = contenders[contender].kind;
    int64_t more = (int64_t)(answers[contender][GATE_OUT_COUNTS] - answers[0][GATE_OUT_COUNTS]);
    if (kind == ONE_PASS || kind == HEIGHTS || more == 0) return;
    printf("    %s: %+" PRId64 " events inside\n", contenders[contender].name, more);
}

/* Members: the regions that an event is in, on average. */
static void count_row(void) {
    time_load(count_pass, contender_count);
    uint64_t members = 0;
    for (int r = 0; r < GATE_REGIONS; r++) members += answers[0][GATE_OUT_COUNTS + r];
    printf("%-34s %6zu %8.2f", load.label, load.plan.len, (double)members / load.count);
    print_times();
    for (int i = 1; i < contender_count; i++) {
        if (best[i] == UNTIMED) continue;
        note_ratio(&load, contenders[i].name, best[0] / best[i]);
        print_difference(i);
    }
    fflush(stdout);
}

/* Even events for all shapes of these groups. */
static void even_table(const char *title, unsigned groups, size_t count) {
    print_heading(title, "event", groups);
    for (int i = 0; i < SHAPES; i++) {
        if ((groups & shapes[i].group) == 0) continue;
        even_load(&load, &shapes[i], count);
        count_row();
        free_load(&load);
    }
}

static void placed_row(const struct placed_shape *shape, size_t count) {
    placed_load(&load, shape, count);
    count_row();
    uint64_t owed = shape->place == INSIDE ? answers[0][GATE_OUT_TAKEN] : 0;
    if (answers[0][GATE_OUT_COUNTS] != owed) fail(load.label, "not the members that were drawn");
    free_load(&load);
}

static void placed_table(size_t count) {
    static const int sizes[] = {3, 8, 64, 256};
    char title[96];
    snprintf(title, sizeof title, "Polygons by outline and place of the events, %zu events", count);
    print_heading(title, "event", POLYGONS);
    for (size_t size = 0; size < sizeof sizes / sizeof sizes[0]; size++) {
        for (enum polygon_outline outline = CONVEX; outline <= RANDOM; outline++) {
            for (enum place place = INSIDE; place <= FAR_AWAY; place++) {
                placed_row(&(struct placed_shape){sizes[size], outline, place}, count);
            }
        }
    }
}

/* The second table has 36 rows: a tenth of the events, rounded up, must do. */
static void polygon_tables(size_t count) {
    even_table("Polygons", POLYGONS, count);
    placed_table((count + 9) / 10);
}

static void examples_table(void) {
    print_heading("Tables of examples/", "event", TABLES);
    for (int i = 0; i < table_count; i++) {
        table_load(&load, tables[i]);
        count_row();
        free_load(&load);
    }
}

static void call_table(void) {
    enum { NUMBER_OF_CALLS = 1000 };
    static const struct {
        struct shape shape;
        pass_function *pass;
    } calls[] = {
        {{CALLS, "gate_check, 64 boxes", 8, 64}, check_pass},
        {{CALLS, "gate_judge, 64 boxes", 8, 64}, judge_pass},
    };
    print_heading("Single calls", "call", CALLS);
    for (size_t i = 0; i < sizeof calls / sizeof calls[0]; i++) {
        even_load(&load, &calls[i].shape, NUMBER_OF_CALLS);
        time_load(calls[i].pass, contender_count);
        printf("%-34s %6zu %8s", load.label, load.plan.len, "");
        print_times();
        free_load(&load);
    }
}

/* The proved counter alone. */
static double proved_time(const struct shape *shape, size_t count) {
    even_load(&load, shape, count);
    time_load(count_pass, 1);
    free_load(&load);
    return best[0];
}

static void linearity_tables(size_t count) {
    static const struct shape growing[] = {{CHAINS, "8 boxes with parents", 2, 8}, {POLYGONS, "64 vertices", 2, 64}};
    size_t counts[] = {count / 10, count, 4 * count};

    printf("\nLinear in the events: nanoseconds per event of the proved counter\n\n%-34s", "plan, n = 2");
    for (int i = 0; i < 3; i++) printf(" %9zu", counts[i]);
    printf("\n");
    for (int shape = 0; shape < 2; shape++) {
        printf("%-34s", growing[shape].name);
        for (int i = 0; i < 3; i++) printf(" %9.2f", proved_time(&growing[shape], counts[i]));
        printf("\n");
    }

    printf("\nLinear in the vertices: nanoseconds of the proved counter, %zu events\n\n", count);
    printf("%-34s %9s %9s %14s\n", "vertices", "per event", "a vertex", "a further one");
    double before = 0;
    for (int size = 8; size <= 256; size *= 2) {
        struct shape polygon = {POLYGONS, "", 2, size};
        double time = proved_time(&polygon, count);
        printf("%-34d %9.2f %9.2f", size, time, time / size);
        if (size > 8) printf(" %14.2f", (time - before) / (size / 2));
        printf("\n");
        before = time;
    }
}

static void all_tables(size_t count) {
    even_table("Boxes and combinations", STEPS, count);
    polygon_tables(count);
    even_table("Ellipses", ELLIPSES, count);
    even_table("Decimal ellipses", DECIMAL_ELLIPSES, count);
    even_table("Ellipsoids", ELLIPSOIDS, count);
    examples_table();
    call_table();
    linearity_tables(count);
}

/* ---- Arguments ---- */

static long setting(const char *name, long standard) {
    const char *text = getenv(name);
    long value = text == NULL ? standard : strtol(text, NULL, 10);
    if (value < 1) fail(name, "a number from 1 expected");
    return value;
}

/* Whether ONLY asks for the tables of polygons alone. */
static bool only_polygons(void) {
    const char *text = getenv("ONLY");
    if (text == NULL || text[0] == '\0') return false;
    if (strcmp(text, "polygons") != 0) fail("ONLY", "polygons expected, or nothing");
    return true;
}

static void add_table(const char *path) {
    if (table_count == MAX_TABLES) fail(path, "too many tables");
    tables[table_count++] = path;
}

/* What follows the option in the argument, or null. */
static const char *after(const char *option, const char *argument) {
    size_t length = strlen(option);
    return strncmp(argument, option, length) == 0 ? argument + length : NULL;
}

static void read_argument(char *argument) {
    const char *rest;
    if ((rest = after("--boost=", argument)) != NULL) add_boost(rest);
    else if ((rest = after("--java=", argument)) != NULL) add_java(rest);
    else if ((rest = after("--table=", argument)) != NULL) add_table(rest);
    else add_counter(argument);
}

int main(int argc, char **argv) {
    signal(SIGPIPE, SIG_IGN); /* a pass of Java tells when it has ended */
    size_t count = (size_t)setting("EVENTS", 1000000);
    rounds = (int)setting("ROUNDS", 7);
    bool only = only_polygons();
    for (int i = 1; i < argc; i++) read_argument(argv[i]);
    if (contender_count == 0 || contenders[0].kind != COUNTER) {
        fail("usage", "timing NAME=LIB.so .. [--boost=LIB.so] [--java=CLASSES] [--table=PATH ..]");
    }
    add_limits();
    printf("\n%zu events, 1 in 100 spoilt; in the tables of examples/ none\n", count);
    if (only) polygon_tables(count);
    else all_tables(count);
    print_targets(only ? POLYGONS : COUNTS);
    return 0;
}
