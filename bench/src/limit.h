/*
 * The limits to hold a counter against: one pass over the events that only looks for spoilt values, and one pass over a
 * polygon's vertices for each event that only looks at their heights.
 */
#ifndef LIMIT_H
#define LIMIT_H

#include <stddef.h>
#include <stdint.h>

/* How many events of n values, 1 to 8, have one outside of -65,536 to 65,535. */
uint64_t spoilt_events(const int32_t *events, size_t count, int n);

/*
 * How many vertices lie above each event of two values, folded into one number in which the order of the events counts.
 * `len` words of vertices, 512 at most.
 */
uint64_t heights_above(const int32_t *vertices, size_t len, const int32_t *events, size_t count);

/* The same number by another way, to hold the first one against. */
uint64_t searched_heights_above(const int32_t *vertices, size_t len, const int32_t *events, size_t count);

#endif
