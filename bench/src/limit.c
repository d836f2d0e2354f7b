/*
 * The limits to hold a counter against: one pass over the events that only looks for spoilt values, and one pass over a
 * polygon's vertices for each event that only looks at their heights.
 */
#include "limit.h"

#include <stdlib.h>

enum { MIN_VALUE = -65536, VALUES = 131072, MAX_VERTICES = 256 };

/* ---- Spoilt events ---- */

/* VALUES is a power of two: the distances of all values from the least are below it when their bits together are. */
static inline uint64_t pass(const int32_t *events, size_t count, size_t n) {
    uint64_t spoilt = 0;
    for (size_t event = 0; event < count; event++) {
        uint32_t distances = 0;
        for (size_t i = 0; i < n; i++) distances |= (uint32_t)events[event * n + i] - (uint32_t)MIN_VALUE;
        spoilt += distances >= VALUES;
    }
    return spoilt;
}

/* The compiler knows n in each of the passes, which makes them up to five times as fast. */
uint64_t spoilt_events(const int32_t *events, size_t count, int n) {
    switch (n) {
    case 1: return pass(events, count, 1);
    case 2: return pass(events, count, 2);
    case 3: return pass(events, count, 3);
    case 4: return pass(events, count, 4);
    case 5: return pass(events, count, 5);
    case 6: return pass(events, count, 6);
    case 7: return pass(events, count, 7);
    default: return pass(events, count, 8);
    }
}

/* ---- Heights ---- */

/* The order of the events counts, so that the compiler can't exchange the loops over events and vertices. */
static inline uint64_t folded(uint64_t number, uint32_t above) { return 31 * number + above; }

uint64_t heights_above(const int32_t *vertices, size_t len, const int32_t *events, size_t count) {
    uint64_t number = 0;
    for (size_t event = 0; event < count; event++) {
        int32_t y = events[2 * event + 1];
        uint32_t above = 0;
        for (size_t i = 1; i < len; i += 2) above += vertices[i] > y;
        number = folded(number, above);
    }
    return number;
}

static int in_order(const void *a, const void *b) {
    int32_t first = *(const int32_t *)a, second = *(const int32_t *)b;
    return (first > second) - (first < second);
}

/* The heights in order, and for each event a search by halves for the first one above it. */
uint64_t searched_heights_above(const int32_t *vertices, size_t len, const int32_t *events, size_t count) {
    int32_t heights[MAX_VERTICES];
    size_t all = len / 2;
    for (size_t i = 0; i < all; i++) heights[i] = vertices[2 * i + 1];
    qsort(heights, all, sizeof heights[0], in_order);
    uint64_t number = 0;
    for (size_t event = 0; event < count; event++) {
        size_t first = 0, end = all;
        while (first < end) {
            size_t middle = (first + end) / 2;
            if (heights[middle] > events[2 * event + 1]) end = middle;
            else first = middle + 1;
        }
        number = folded(number, (uint32_t)(all - first));
    }
    return number;
}
