/* The loads that are timed: a plan and its events. */
#ifndef LOADS_H
#define LOADS_H

#include "places.h"
#include "plans.h"

/* Groups of loads; a set of groups is the sum of them. */
enum group {
    BOXES = 1,
    CHAINS = 2, /* boxes that have parents */
    COMBINATIONS = 4,
    POLYGONS = 8,
    ELLIPSES = 16,
    DECIMAL_ELLIPSES = 32,
    ELLIPSOIDS = 64,
    TABLES = 128, /* of examples/ */
    CALLS = 256,  /* of gate_check and gate_judge; all others are counts */

    STEPS = BOXES + CHAINS + COMBINATIONS,
    COUNTS = STEPS + POLYGONS + ELLIPSES + DECIMAL_ELLIPSES + ELLIPSOIDS + TABLES
};

enum { LABEL_ROOM = 64 };

struct load {
    char label[LABEL_ROOM];
    enum group group;
    struct plan plan;
    int32_t *events;
    size_t count; /* of events */
};

/* A plan of plans.h and what it is called. */
struct shape {
    enum group group;
    const char *name;
    int n;
    int size; /* boxes, steps, vertices, ellipses or ellipsoids */
};

/* Events that are drawn evenly, for a plan of plans.h. */
void even_load(struct load *load, const struct shape *shape, size_t count);

/* A polygon's outline and where the events are. */
struct placed_shape {
    int vertices;
    enum polygon_outline outline;
    enum place place;
};

/* Events that are drawn from one place, for a plan of one polygon; one of 100 is spoilt. */
void placed_load(struct load *load, const struct placed_shape *shape, size_t count);

/* A table of examples/ by PATH.plan, its plan as gateplan prints it, and PATH.events, words in native order. */
void table_load(struct load *load, const char *path);

void free_load(struct load *load);

/* Values of an event. */
int dimensions(const struct load *load);

size_t events_len(const struct load *load);

/* The vertices of a plan of one polygon. */
const int32_t *vertices(const struct load *load);

size_t vertices_len(const struct load *load);

/* How many vertices the polygon has, 0 in a load of another group. */
int vertex_count(const struct load *load);

#endif
