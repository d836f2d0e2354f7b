/* The loads that are timed: a plan and its events. */
#include "loads.h"

#include "fail.h"

#include <errno.h>
#include <inttypes.h>
#include <string.h>

/* Where a plan of one polygon has its vertices. */
enum { VERTICES_AT = 8 };

int dimensions(const struct load *load) { return load->plan.words[0]; }

size_t events_len(const struct load *load) { return load->count * (size_t)dimensions(load); }

const int32_t *vertices(const struct load *load) { return load->plan.words + VERTICES_AT; }

size_t vertices_len(const struct load *load) { return load->plan.len - VERTICES_AT; }

int vertex_count(const struct load *load) { return load->group == POLYGONS ? (int)(vertices_len(load) / 2) : 0; }

/* Room for `count` events of the load's plan. */
static void make_room(struct load *load, size_t count) {
    load->count = count;
    load->events = malloc(events_len(load) * sizeof load->events[0]);
    if (load->events == NULL) fail("malloc", strerror(errno));
}

void free_load(struct load *load) { free(load->events); }

/* ---- Even events ---- */

void even_load(struct load *load, const struct shape *shape, size_t count) {
    load->group = shape->group;
    snprintf(load->label, sizeof load->label, "%s, n = %d", shape->name, shape->n);
    switch (shape->group) {
    case CHAINS: boxes_load(&load->plan, shape->n, shape->size, true); break;
    case COMBINATIONS: combinations_load(&load->plan, shape->n); break;
    case POLYGONS: polygon_load(&load->plan, shape->size); break;
    case ELLIPSES: ellipses_load(&load->plan, shape->size); break;
    case DECIMAL_ELLIPSES: decimal_ellipses_load(&load->plan, shape->size); break;
    case ELLIPSOIDS: ellipsoids_load(&load->plan, shape->size); break;
    default: boxes_load(&load->plan, shape->n, shape->size, false);
    }
    make_room(load, count);
    even_events(load->events, shape->n, count);
}

/* ---- Events of one place ---- */

void placed_load(struct load *load, const struct placed_shape *shape, size_t count) {
    static const char *const outlines[] = {[CONVEX] = "convex", [STAR] = "star", [RANDOM] = "random"};
    static const char *const places[] = {[INSIDE] = "inside", [OUTSIDE] = "outside", [FAR_AWAY] = "far away"};
    load->group = POLYGONS;
    snprintf(load->label, sizeof load->label, "%d vertices, %s, %s", shape->vertices, outlines[shape->outline],
             places[shape->place]);
    outline_load(&load->plan, shape->outline, shape->vertices);
    make_room(load, count);
    placed_events(load->events, count, shape->place, vertices(load), vertices_len(load));
    spoil_events(load->events, dimensions(load), count);
}

/* ---- Tables ---- */

enum { PATH_ROOM = 4096 };

static FILE *open_file(const char *path, const char *ending) {
    char name[PATH_ROOM];
    snprintf(name, sizeof name, "%s%s", path, ending);
    FILE *file = fopen(name, "rb");
    if (file == NULL) fail(name, strerror(errno));
    return file;
}

static void read_plan(struct plan *plan, const char *path) {
    FILE *file = open_file(path, ".plan");
    plan->len = 0;
    while (plan->len < PLAN_ROOM && fscanf(file, "%" SCNd32, &plan->words[plan->len]) == 1) plan->len++;
    if (!feof(file) || plan->len == 0 || plan->words[0] < 1) fail(path, "its plan is none");
    fclose(file);
}

static void read_events(struct load *load, const char *path) {
    FILE *file = open_file(path, ".events");
    fseek(file, 0, SEEK_END);
    long bytes = ftell(file);
    size_t event_bytes = (size_t)dimensions(load) * sizeof load->events[0];
    if (bytes <= 0 || (size_t)bytes % event_bytes != 0) fail(path, "its events are no events of its plan");
    make_room(load, (size_t)bytes / event_bytes);
    rewind(file);
    if (fread(load->events, event_bytes, load->count, file) != load->count) fail(path, "its events can't be read");
    fclose(file);
}

void table_load(struct load *load, const char *path) {
    const char *slash = strrchr(path, '/');
    load->group = TABLES;
    read_plan(&load->plan, path);
    read_events(load, path);
    snprintf(load->label, sizeof load->label, "%s, n = %d", slash == NULL ? path : slash + 1, dimensions(load));
}
