/*
 * agree PLANS NAME=LIB.so ..: runs random plans and events through gate_check, gate_judge and gate_count of all
 * libraries and demands equal answers. Plans are of good form and damaged, and of all kinds; many events lie on a
 * bound, an edge or a rim, and each kind of outline must be met, and so must events taken in some region and in none. A
 * library after the first may be that of an earlier counter: as many numbers are compared as its row has, and a plan
 * must be refused by it at the first kind of step that it does not know.
 */
#include "libraries.h"
#include "plans.h"

#include <inttypes.h>
#include <stdio.h>
#include <stdlib.h>
#include <string.h>

enum { MAX_LIBRARIES = 8, MAX_EVENTS = 200, MAX_N = 8 };

/* Stands in `out` before a call, and in the words after it, which nobody may write. */
#define GUARD 0xA5A5A5A5A5A5A5A5u

struct answer {
    uint64_t out[GATE_COUNT_OUT + 1];
};

static struct library libraries[MAX_LIBRARIES];
static int library_count;

static void print_words(const char *what, const int32_t *words, size_t len) {
    fprintf(stderr, "%s:", what);
    for (size_t i = 0; i < len; i++) fprintf(stderr, " %" PRId32, words[i]);
    fprintf(stderr, "\n");
}

enum function { CHECK, JUDGE, COUNT };

static const char *const function_names[] = {"gate_check", "gate_judge", "gate_count"};

/* The numbers in the row of a library's function. */
static size_t out_length(const struct library *library, enum function function) {
    switch (function) {
    case CHECK: return GATE_CHECK_OUT;
    case JUDGE: return library->judge_out;
    default: return library->count_out;
    }
}

static struct answer ask(const struct library *library, enum function function, const struct plan *plan,
                         const int32_t *events, size_t events_len) {
    struct answer answer;
    for (size_t i = 0; i <= GATE_COUNT_OUT; i++) answer.out[i] = GUARD;
    switch (function) {
    case CHECK: library->check(plan->words, plan->len, answer.out); break;
    case JUDGE: library->judge(plan->words, plan->len, events, events_len, answer.out); break;
    case COUNT: library->count(plan->words, plan->len, events, events_len, answer.out); break;
    }
    return answer;
}

/* The place of the first kind of step above last_kind, the plan's length where there is none. */
static size_t new_word(const struct plan *plan, int32_t last_kind) {
    size_t at = 2;
    for (int32_t s = 0; at < plan->len && s < plan->words[1]; s++) {
        if (plan->words[at] > last_kind) return at;
        if (plan->len - at < 4 || plan->words[at + 3] < 0) break;
        at += 4 + (size_t)plan->words[at + 3];
    }
    return plan->len;
}

/* The answer that a library owes: the first one's, or that of refusing a kind of step that it does not know. */
static struct answer owed_by(const struct library *library, const struct plan *plan, const struct answer *first) {
    const uint64_t *out = first->out;
    size_t place = new_word(plan, library->last_kind);
    bool refused = out[GATE_OUT_REFUSAL] == GATE_LONG_PLAN || out[GATE_OUT_REFUSAL] == GATE_MALFORMED_PLAN;
    if (place == plan->len || (refused && out[GATE_OUT_PLACE] <= place)) return *first;
    struct answer owed = {{GATE_MALFORMED_PLAN, place}};
    return owed;
}

/* Whether the `len` numbers of a row are those that are owed, and none was written beyond them. */
static bool agrees(const struct answer *answer, const struct answer *owed, size_t len) {
    for (size_t i = len; i <= GATE_COUNT_OUT; i++) {
        if (answer->out[i] != GUARD) return false;
    }
    return memcmp(answer->out, owed->out, len * sizeof answer->out[0]) == 0;
}

/* The answer of all libraries; ends the program where two differ or one writes beyond `out`. */
static struct answer ask_all(enum function function, const struct plan *plan,
                             const int32_t *events, size_t events_len) {
    struct answer first = ask(&libraries[0], function, plan, events, events_len);
    for (int i = 0; i < library_count; i++) {
        size_t len = out_length(&libraries[i], function);
        struct answer answer = ask(&libraries[i], function, plan, events, events_len);
        struct answer owed = owed_by(&libraries[i], plan, &first);
        if (agrees(&answer, &owed, len)) continue;
        fprintf(stderr, "%s: %s and %s differ, or write beyond out\n", function_names[function], libraries[0].name,
                libraries[i].name);
        for (size_t j = 0; j <= len; j++) {
            if (answer.out[j] != owed.out[j] || j < 2) {
                fprintf(stderr, "out[%zu]: %" PRIu64 ", %" PRIu64 "\n", j, owed.out[j], answer.out[j]);
            }
        }
        print_words("plan", plan->words, plan->len);
        print_words("events", events, events_len);
        exit(1);
    }
    return first;
}

/* ---- Outlines ---- */

enum outline {
    POLYGON, UPRIGHT_ELLIPSE, TILTED_ELLIPSE, UPRIGHT_DECIMAL, TILTED_DECIMAL, UPRIGHT_ELLIPSOID, TILTED_ELLIPSOID, OUTLINES
};

static const char *const outline_names[] = {"polygon", "upright ellipse", "tilted ellipse", "upright decimal ellipse",
                                            "tilted decimal ellipse", "upright ellipsoid", "tilted ellipsoid"};

static uint64_t outline_bits[OUTLINES]; /* those that judged events had */

/* Of an ellipsoid. */
static bool is_upright(const int32_t *body) { return body[7] == 0 && body[8] == 0 && body[10] == 0; }

/* Notes the outline bits of an event by the shapes of their regions; the plan passes. */
static void note_outlines(const struct plan *plan, uint64_t outline) {
    const int32_t *step = plan->words + 2;
    for (int s = 0; s < plan->words[1]; s++) {
        const int32_t *body = step + 4;
        int bit = gate_is_on_outline(outline, step[1]);
        if (step[0] == GATE_POLYGON) outline_bits[POLYGON] += bit;
        else if (step[0] == GATE_ELLIPSE) outline_bits[body[5] == 0 ? UPRIGHT_ELLIPSE : TILTED_ELLIPSE] += bit;
        else if (step[0] == GATE_DECIMAL_ELLIPSE) outline_bits[body[5] == 0 ? UPRIGHT_DECIMAL : TILTED_DECIMAL] += bit;
        else if (step[0] == GATE_ELLIPSOID) outline_bits[is_upright(body) ? UPRIGHT_ELLIPSOID : TILTED_ELLIPSOID] += bit;
        step = body + step[3];
    }
}

/* Prints the outline bits of each shape; ends the program where a shape has none. */
static void demand_outlines(void) {
    for (int i = 0; i < OUTLINES; i++) printf("outline bits, %-23s %8" PRIu64 "\n", outline_names[i], outline_bits[i]);
    for (int i = 0; i < OUTLINES; i++) {
        if (outline_bits[i] > 0) continue;
        fprintf(stderr, "no outline bit was met, %s\n", outline_names[i]);
        exit(1);
    }
}

/* Says what an earlier counter lacks. */
static void print_earlier(const struct library *library) {
    if (library->last_kind < LAST_KIND) {
        printf("%s has the kinds of step up to %" PRId32 " and must refuse others\n", library->name, library->last_kind);
    }
    if (library->judge_out < GATE_JUDGE_OUT) {
        printf("%s has rows of %zu numbers of gate_judge; so many are compared\n", library->name, library->judge_out);
    }
    if (library->count_out < GATE_COUNT_OUT) {
        printf("%s has rows of %zu numbers of gate_count; so many are compared\n", library->name, library->count_out);
    }
}

int main(int argc, char **argv) {
    if (argc < 4 || argc - 2 > MAX_LIBRARIES) {
        fprintf(stderr, "usage: agree PLANS NAME=LIB.so NAME=LIB.so ..\n");
        return 1;
    }
    long plans = strtol(argv[1], NULL, 10);
    for (int i = 2; i < argc; i++) libraries[library_count++] = load_library(argv[i]);
    if (libraries[0].judge_out < GATE_JUDGE_OUT || libraries[0].count_out < GATE_COUNT_OUT || libraries[0].last_kind < LAST_KIND) {
        fprintf(stderr, "%s: an earlier counter can't be the first library\n", libraries[0].name);
        return 1;
    }

    struct random random = seeded(2015);
    uint64_t checked[GATE_SPOILT + 1] = {0}, judged[GATE_SPOILT + 1] = {0}, counted[GATE_SPOILT + 1] = {0};
    uint64_t taken = 0, unclaimed = 0, aimed = 0, on_outline = 0;
    for (long turn = 0; turn < plans; turn++) {
        static struct plan good, plan;
        int32_t events[MAX_EVENTS * MAX_N + 1] = {0};
        random_plan(&random, &good);
        plan = good;
        if (turn % 3 != 0) damage(&random, &plan);

        size_t n = (size_t)good.words[0], count = below(&random, MAX_EVENTS + 1), events_len = count * n;
        for (size_t i = 0; i < count; i++) aimed += random_event(&random, &good, events + i * n);
        if (below(&random, 16) == 0) events_len++;

        checked[ask_all(CHECK, &plan, events, 0).out[GATE_OUT_REFUSAL]]++;
        struct answer answer = ask_all(COUNT, &plan, events, events_len);
        counted[answer.out[GATE_OUT_REFUSAL]]++;
        taken += answer.out[GATE_OUT_TAKEN];
        unclaimed += answer.out[GATE_OUT_UNCLAIMED];
        for (size_t i = 0; i < count && i < 8; i++) {
            size_t event_len = below(&random, 16) == 0 ? below(&random, n + 2) : n;
            struct answer judgement = ask_all(JUDGE, &plan, events + i * n, event_len);
            judged[judgement.out[GATE_OUT_REFUSAL]]++;
            if (judgement.out[GATE_OUT_REFUSAL] != GATE_PASSES) continue;
            on_outline += judgement.out[GATE_OUT_OUTLINE] != 0;
            note_outlines(&plan, judgement.out[GATE_OUT_OUTLINE]);
        }
    }

    printf("Agreement of %d libraries:", library_count);
    for (int i = 0; i < library_count; i++) printf(" %s", libraries[i].name);
    printf("\n");
    for (int i = 0; i < library_count; i++) print_earlier(&libraries[i]);
    printf("%-12s %8s %8s %8s %8s %8s\n", "", "pass", "21", "22", "23", "24");
    const uint64_t *rows[] = {checked, judged, counted};
    for (int i = CHECK; i <= COUNT; i++) {
        printf("%-12s %8" PRIu64, function_names[i], rows[i][GATE_PASSES]);
        for (int number = GATE_LONG_PLAN; number <= GATE_SPOILT; number++) printf(" %8" PRIu64, rows[i][number]);
        printf("\n");
    }
    printf("%ld plans, all answers equal; %" PRIu64 " events taken in counts, %" PRIu64 " of them unclaimed, %" PRIu64
           " events put on a bound, an edge or a rim, %" PRIu64 " events judged to be on an outline\n",
           plans, taken, unclaimed, aimed, on_outline);
    if (unclaimed == 0 || unclaimed == taken) {
        fprintf(stderr, "no event taken was met that is in %s region\n", unclaimed == 0 ? "no" : "some");
        return 1;
    }
    demand_outlines();
    return 0;
}
