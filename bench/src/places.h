/* Events by their place: within a polygon, beside it or far from it. */
#ifndef PLACES_H
#define PLACES_H

#include <stddef.h>
#include <stdint.h>

enum place {
    INSIDE,  /* members */
    OUTSIDE, /* no members, within the bounds of the vertices */
    FAR_AWAY /* beyond the bounds of the vertices: to the left, to the right, above and below in equal parts */
};

/* Events of two values that are drawn evenly from the place; none is spoilt. `len` words of vertices. */
void placed_events(int32_t *events, size_t count, enum place place, const int32_t *vertices, size_t len);

#endif
