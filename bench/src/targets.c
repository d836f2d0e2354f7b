/* The parts of other libraries' time that the proved counter should not exceed. */
#include "targets.h"

#include <math.h>
#include <stdio.h>
#include <string.h>

enum measure { GREATEST, GEOMETRIC_MEAN };

/* Loads with any number of vertices, also those that are no polygon and have none. */
#define ANY {0, 256}

/* The same code differs from run to run by some per cent: with less room a target would be missed by chance. */
#define AS_BEFORE 1.03

static const struct target {
    const char *loads;
    unsigned groups; /* the set of them that the loads are from */
    struct {
        int fewest, most;
    } vertices;
    enum measure measure;
    const char *library;
    double limit;
} targets[] = {
    {"boxes and combinations but chains", BOXES + COMBINATIONS, ANY, GREATEST, "gcc", 0.75},
    {"chains of parents", CHAINS, ANY, GREATEST, "gcc", 0.95},
    {"boxes and combinations, mean", STEPS, ANY, GEOMETRIC_MEAN, "gcc", 0.50},
    {"boxes and combinations", STEPS, ANY, GREATEST, "Rust", 0.65},
    {"boxes and combinations", STEPS, ANY, GREATEST, "before", AS_BEFORE},
    {"polygons of 3 vertices", POLYGONS, {3, 3}, GREATEST, "gcc", 0.90},
    {"polygons of 8 vertices", POLYGONS, {8, 8}, GREATEST, "gcc", 0.60},
    {"polygons of 64 and 256 vertices", POLYGONS, {64, 256}, GREATEST, "gcc", 0.40},
    {"polygons of 8 vertices", POLYGONS, {8, 8}, GREATEST, "Boost double", 0.33},
    {"polygons of 8 vertices", POLYGONS, {8, 8}, GREATEST, "Java 2D", 0.60},
    {"polygons", POLYGONS, ANY, GREATEST, "before", 1.00},
    {"ellipses", ELLIPSES, ANY, GREATEST, "gcc", 0.70},
    {"ellipses", ELLIPSES, ANY, GREATEST, "before", AS_BEFORE},
    {"decimal ellipses", DECIMAL_ELLIPSES, ANY, GREATEST, "gcc", 2.00},
    {"decimal ellipses", DECIMAL_ELLIPSES, ANY, GREATEST, "before", AS_BEFORE},
    {"ellipsoids", ELLIPSOIDS, ANY, GREATEST, "gcc", 2.00},
    {"tables of examples/", TABLES, ANY, GREATEST, "gcc", 1.00},
    {"tables of examples/", TABLES, ANY, GREATEST, "Rust", 1.00},
    {"tables of examples/", TABLES, ANY, GREATEST, "before", AS_BEFORE},
};
enum { TARGETS = sizeof targets / sizeof targets[0] };

/* The ratios that were noted for each target. */
static struct {
    int number;
    double greatest, logarithms;  /* the greatest of them, and the sum of their logarithms */
    char greatest_at[LABEL_ROOM]; /* the load that has the greatest */
} noted[TARGETS];

static bool is_for(const struct target *target, const struct load *load, const char *library) {
    int vertices = vertex_count(load);
    return (target->groups & load->group) != 0 && target->vertices.fewest <= vertices &&
           vertices <= target->vertices.most && strcmp(target->library, library) == 0;
}

void note_ratio(const struct load *load, const char *library, double ratio) {
    for (int i = 0; i < TARGETS; i++) {
        if (!is_for(&targets[i], load, library)) continue;
        noted[i].number++;
        noted[i].logarithms += log(ratio);
        if (ratio <= noted[i].greatest) continue;
        noted[i].greatest = ratio;
        strcpy(noted[i].greatest_at, load->label);
    }
}

static void print_measured(int i) {
    bool greatest = targets[i].measure == GREATEST;
    double measured = greatest ? noted[i].greatest : exp(noted[i].logarithms / noted[i].number);
    printf("%8.2f | %-6s | %-33s |\n", measured, measured <= targets[i].limit ? "met" : "missed",
           greatest ? noted[i].greatest_at : "");
}

void print_targets(unsigned groups) {
    printf("\nGreatest ratio of each group of loads and where it is, or the geometric mean, and the target\n\n");
    printf("| %-33s | %-12s | %6s | %8s |        | %-33s |\n", "loads", "proved /", "target", "measured", "where");
    printf("|-----------------------------------|--------------|--------|----------|--------|");
    printf("-----------------------------------|\n");
    for (int i = 0; i < TARGETS; i++) {
        if ((targets[i].groups & groups) == 0) continue;
        printf("| %-33s | %-12s | %6.2f | ", targets[i].loads, targets[i].library, targets[i].limit);
        if (noted[i].number == 0) printf("%8s | %-6s | %-33s |\n", "absent", "", "");
        else print_measured(i);
    }
}
