/* The libraries that are compared, each loaded from its own shared object. */
#ifndef LIBRARIES_H
#define LIBRARIES_H

#include "gatecount.h"

enum { LAST_KIND = GATE_ELLIPSOID }; /* of step */

/* One that has the functions of gatecount.h, or those of an earlier counter. */
struct library {
    const char *name;
    void (*check)(const int32_t *plan, size_t plan_len, uint64_t *out);
    void (*judge)(const int32_t *plan, size_t plan_len, const int32_t *event, size_t event_len, uint64_t *out);
    void (*count)(const int32_t *plan, size_t plan_len, const int32_t *events, size_t events_len, uint64_t *out);
    size_t judge_out;  /* numbers in the row of judge: GATE_JUDGE_OUT, fewer in an earlier counter */
    size_t count_out;  /* numbers in the row of count: GATE_COUNT_OUT, fewer in an earlier counter */
    int32_t last_kind; /* the last kind of step that it knows: LAST_KIND, a lower one in an earlier counter */
};

/* From "NAME=FILE"; ends the program where that fails. */
struct library load_library(char *argument);

/* The address of a function in a shared object; ends the program where that fails. */
void *load_function(const char *file, const char *function);

#endif
