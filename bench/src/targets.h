/* The parts of other libraries' time that the proved counter should not exceed. */
#ifndef TARGETS_H
#define TARGETS_H

#include "loads.h"

/* The proved counter took this part of the library's time on the load. */
void note_ratio(const struct load *load, const char *library, double ratio);

/* The targets of loads from these groups. */
void print_targets(unsigned groups);

#endif
