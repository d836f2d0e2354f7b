/* What is timed: counters, functions that only test a polygon, and the passes of limit.h. */
#define _POSIX_C_SOURCE 200809L

#include "contenders.h"

#include "fail.h"
#include "limit.h"

#include <errno.h>
#include <inttypes.h>
#include <string.h>
#include <sys/wait.h>
#include <time.h>
#include <unistd.h>

struct contender contenders[MAX_CONTENDERS];
int contender_count;

static struct contender *add_contender(const char *name, enum contender_kind kind, unsigned groups) {
    if (contender_count == MAX_CONTENDERS) fail(name, "too many libraries");
    struct contender *contender = &contenders[contender_count++];
    memset(contender, 0, sizeof *contender);
    contender->name = name;
    contender->kind = kind;
    contender->groups = groups;
    return contender;
}

/* An earlier counter may not know decimal ellipses or ellipsoids. */
void add_counter(char *argument) {
    struct library library = load_library(argument);
    unsigned unknown = library.last_kind < GATE_DECIMAL_ELLIPSE ? DECIMAL_ELLIPSES : 0;
    if (library.last_kind < GATE_ELLIPSOID) unknown += ELLIPSOIDS;
    add_contender(library.name, COUNTER, COUNTS + CALLS - unknown)->library = library;
}

void add_boost(const char *file) {
    *(void **)&add_contender("Boost double", INSIDE_FUNCTION, POLYGONS)->inside = load_function(file, "inside_double");
    *(void **)&add_contender("Boost int64", INSIDE_FUNCTION, POLYGONS)->inside = load_function(file, "inside_int64");
}

void add_java(const char *classes) { add_contender("Java 2D", JAVA, POLYGONS)->java.classes = classes; }

void add_limits(void) {
    add_contender("one pass", ONE_PASS, COUNTS);
    add_contender("heights", HEIGHTS, POLYGONS);
}

/* ---- Java, which runs beside this process and makes a pass when it is sent a line ---- */

static void write_polygon(const struct load *load, const char *name) {
    FILE *file = fopen(name, "wb");
    if (file == NULL) fail(name, strerror(errno));
    int32_t lengths[] = {(int32_t)vertices_len(load), (int32_t)events_len(load)};
    fwrite(lengths, sizeof lengths[0], 2, file);
    fwrite(vertices(load), sizeof *vertices(load), vertices_len(load), file);
    fwrite(load->events, sizeof load->events[0], events_len(load), file);
    if (fclose(file) != 0) fail(name, strerror(errno));
}

static void start_java(struct contender *contender, const struct load *load) {
    char file[4096];
    snprintf(file, sizeof file, "%s/polygon.bin", contender->java.classes);
    write_polygon(load, file);

    int to[2], from[2];
    if (pipe(to) != 0 || pipe(from) != 0) fail("pipe", strerror(errno));
    contender->java.process = fork();
    if (contender->java.process < 0) fail("fork", strerror(errno));
    if (contender->java.process == 0) {
        dup2(to[0], STDIN_FILENO);
        dup2(from[1], STDOUT_FILENO);
        close(to[1]);
        close(from[0]);
        execlp("java", "java", "-cp", contender->java.classes, "PolygonJava", file, (char *)NULL);
        perror("java");
        _exit(1);
    }
    close(to[0]);
    close(from[1]);
    contender->java.to = fdopen(to[1], "w");
    contender->java.from = fdopen(from[0], "r");
}

static double java_pass(struct contender *contender, uint64_t *inside) {
    double nanoseconds;
    fputs("\n", contender->java.to);
    fflush(contender->java.to);
    if (fscanf(contender->java.from, "%lf %" SCNu64, &nanoseconds, inside) != 2) fail("java", "no answer");
    return nanoseconds;
}

static void stop_java(struct contender *contender) {
    fclose(contender->java.to);
    fclose(contender->java.from);
    waitpid(contender->java.process, NULL, 0);
}

void begin_passes(struct contender *contender, const struct load *load) {
    if (contender->kind == JAVA) start_java(contender, load);
}

void end_passes(struct contender *contender) {
    if (contender->kind == JAVA) stop_java(contender);
}

/* ---- Passes ---- */

static double now(void) {
    struct timespec time;
    clock_gettime(CLOCK_THREAD_CPUTIME_ID, &time);
    return time.tv_sec * 1e9 + time.tv_nsec;
}

double count_pass(struct contender *contender, const struct load *load, uint64_t *out) {
    const struct plan *plan = &load->plan;
    size_t len = events_len(load);
    double start = now();
    switch (contender->kind) {
    case COUNTER: contender->library.count(plan->words, plan->len, load->events, len, out); break;
    case INSIDE_FUNCTION:
        out[GATE_OUT_COUNTS] = contender->inside(vertices(load), vertices_len(load), load->events, len);
        break;
    case JAVA: return java_pass(contender, &out[GATE_OUT_COUNTS]);
    case ONE_PASS: out[GATE_OUT_SPOILT_COUNT] = spoilt_events(load->events, load->count, dimensions(load)); break;
    case HEIGHTS: out[0] = heights_above(vertices(load), vertices_len(load), load->events, load->count); break;
    }
    return now() - start;
}

double check_pass(struct contender *contender, const struct load *load, uint64_t *out) {
    const struct plan *plan = &load->plan;
    double start = now();
    for (size_t call = 0; call < load->count; call++) contender->library.check(plan->words, plan->len, out);
    return now() - start;
}

double judge_pass(struct contender *contender, const struct load *load, uint64_t *out) {
    const struct plan *plan = &load->plan;
    size_t n = (size_t)dimensions(load);
    double start = now();
    for (size_t call = 0; call < load->count; call++) {
        contender->library.judge(plan->words, plan->len, load->events + n * call, n, out);
    }
    return now() - start;
}
