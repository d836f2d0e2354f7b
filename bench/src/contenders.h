/* What is timed: counters, functions that only test a polygon, and the passes of limit.h. */
#ifndef CONTENDERS_H
#define CONTENDERS_H

#include "libraries.h"
#include "loads.h"

#include <stdio.h>
#include <sys/types.h>

typedef uint64_t inside_function(const int32_t *vertices, size_t vertices_len,
                                 const int32_t *events, size_t events_len);

enum contender_kind { COUNTER, INSIDE_FUNCTION, JAVA, ONE_PASS, HEIGHTS };

struct contender {
    const char *name;
    enum contender_kind kind;
    unsigned groups;        /* the set of those that it takes part in */
    struct library library; /* of a counter */
    inside_function *inside;
    struct {
        const char *classes;
        pid_t process;
        FILE *to, *from;
    } java;
};

enum { MAX_CONTENDERS = 12 };

extern struct contender contenders[MAX_CONTENDERS];
extern int contender_count;

void add_counter(char *argument); /* NAME=LIB.so */
void add_boost(const char *file);
void add_java(const char *classes);
void add_limits(void);

/* Before the first pass over a load, and after the last. */
void begin_passes(struct contender *contender, const struct load *load);
void end_passes(struct contender *contender);

/*
 * One pass over the events, its nanoseconds of processor time: what other programs take meanwhile does not count.
 * Those that only test a polygon give the count of region 0, one pass the number of spoilt events, and heights its
 * number in the first word.
 */
typedef double pass_function(struct contender *contender, const struct load *load, uint64_t *out);

pass_function count_pass; /* all events in a call of gate_count */
pass_function check_pass; /* a call of gate_check for each event */
pass_function judge_pass; /* a call of gate_judge, which checks the plan again, for each event */

#endif
