/* Plans and events for the comparisons: fixed loads for timing, random ones for agreement. */
#ifndef PLANS_H
#define PLANS_H

#include "gatecount.h"

#include <stdbool.h>

/* Room for a plan that is too long. */
#define PLAN_ROOM (GATE_MAX_WORDS + 64)

struct plan {
    int32_t words[PLAN_ROOM];
    size_t len;
    size_t steps;
    size_t step_at[GATE_REGIONS]; /* where each step begins */
    int32_t reach;                /* its numbers go from -reach to reach - 1 */
};

/* ---- Random numbers ---- */

struct random {
    uint64_t state;
};

/* A seed from 1 on. */
struct random seeded(uint64_t seed);

/* From 0 to limit - 1. */
uint64_t below(struct random *random, uint64_t limit);

/* From low to high. */
int32_t from_to(struct random *random, int32_t low, int32_t high);

/* ---- Loads for timing ---- */

/* Boxes over all n dimensions that hold half of the events each; the parent of i is (i - 1) / 2, or none has one. */
void boxes_load(struct plan *plan, int n, int count, bool parents);

/* 64 steps: boxes, and, or, not in turn, half of them with a parent. */
void combinations_load(struct plan *plan, int n);

/* One star-shaped polygon that holds some 37 % of the events; n is 2. */
void polygon_load(struct plan *plan, int vertices);

/* How the vertices of a polygon were drawn. */
enum polygon_outline {
    CONVEX, /* on a circle, in order of angle */
    STAR,   /* seen from one point in order of angle; the nearest is half as far as the farthest may be */
    RANDOM  /* evenly in a square: edges cross each other */
};

/* One polygon in the middle of the scale, no vertex farther than 30,000 from it either way; n is 2. */
void outline_load(struct plan *plan, enum polygon_outline outline, int vertices);

/* Ellipses that hold about half of the events each; n is 2. */
void ellipses_load(struct plan *plan, int count);

/* The same with decimals, whose rule passes 64 bits. */
void decimal_ellipses_load(struct plan *plan, int count);

/* Ellipsoids that hold about half of the events each; n is 3. Their rule passes 64 bits. */
void ellipsoids_load(struct plan *plan, int count);

/* Events of n values drawn evenly from the whole range; one of 100 is spoilt. */
void even_events(int32_t *events, int n, size_t count);

/* Spoils one event of 100. */
void spoil_events(int32_t *events, int n, size_t count);

/* ---- Random plans and events ---- */

/* A plan of good form, of any kinds. */
void random_plan(struct random *random, struct plan *plan);

/* Puts up to three faults into a plan: words changed, cut off or added. It may still be of good form. */
void damage(struct random *random, struct plan *plan);

/* One event of n values; true when it was put on a bound, an edge or a rim of the plan, which is of good form. */
bool random_event(struct random *random, const struct plan *plan, int32_t *event);

#endif
