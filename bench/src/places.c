/* Events by their place: within a polygon, beside it or far from it. */
#include "places.h"

#include "plans.h"

enum { MIN_VALUE = -65536, MAX_VALUE = 65535 };

/* From low to high in each dimension. */
struct bounds {
    int32_t low[2], high[2];
};

static struct bounds bounds_of(const int32_t *vertices, size_t len) {
    struct bounds bounds = {{vertices[0], vertices[1]}, {vertices[0], vertices[1]}};
    for (size_t i = 0; i < len; i++) {
        int32_t *low = &bounds.low[i % 2], *high = &bounds.high[i % 2];
        if (vertices[i] < *low) *low = vertices[i];
        if (vertices[i] > *high) *high = vertices[i];
    }
    return bounds;
}

/* Whether x is from a to b or from b to a. */
static bool between(int64_t a, int64_t b, int64_t x) { return (a - x) * (b - x) <= 0; }

/* The polygon's rule, exact: the event is on an edge, or edges that go up and down to its right do not cancel out. */
static bool is_member(const int32_t *vertices, size_t len, const int32_t *event) {
    int64_t x = event[0], y = event[1];
    int turns = 0;
    for (size_t i = 0; i < len; i += 2) {
        const int32_t *from = vertices + i, *to = vertices + (i + 2) % len;
        int64_t side = ((int64_t)to[0] - from[0]) * (y - from[1]) - (x - from[0]) * ((int64_t)to[1] - from[1]);
        if (side == 0 && between(from[0], to[0], x) && between(from[1], to[1], y)) return true;
        turns += from[1] <= y && y < to[1] && side > 0;
        turns -= to[1] <= y && y < from[1] && side < 0;
    }
    return turns != 0;
}

static void draw_within(struct random *random, const struct bounds *bounds, int32_t *event) {
    for (int i = 0; i < 2; i++) event[i] = from_to(random, bounds->low[i], bounds->high[i]);
}

/* Beyond one of the four bounds, which is drawn too; the other value is any. */
static void draw_beyond(struct random *random, const struct bounds *bounds, int32_t *event) {
    int i = (int)below(random, 2);
    bool lower = below(random, 2) == 0;
    event[i] = lower ? from_to(random, MIN_VALUE, bounds->low[i] - 1) : from_to(random, bounds->high[i] + 1, MAX_VALUE);
    event[1 - i] = from_to(random, MIN_VALUE, MAX_VALUE);
}

void placed_events(int32_t *events, size_t count, enum place place, const int32_t *vertices, size_t len) {
    struct random random = seeded(9);
    struct bounds bounds = bounds_of(vertices, len);
    for (int32_t *event = events; event < events + 2 * count; event += 2) {
        if (place == FAR_AWAY) {
            draw_beyond(&random, &bounds, event);
        } else {
            do draw_within(&random, &bounds, event);
            while (is_member(vertices, len, event) != (place == INSIDE));
        }
    }
}
