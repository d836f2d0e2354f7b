/* The libraries that are compared, each loaded from its own shared object. */
#include "libraries.h"

#include <dlfcn.h>
#include <stdbool.h>
#include <stdio.h>
#include <stdlib.h>
#include <string.h>

/* The address of a function in a shared object; null where that fails. */
static void *find_function(const char *file, const char *function) {
    void *object = dlopen(file, RTLD_NOW | RTLD_LOCAL);
    return object == NULL ? NULL : dlsym(object, function);
}

void *load_function(const char *file, const char *function) {
    void *address = find_function(file, function);
    if (address == NULL) {
        fprintf(stderr, "%s\n", dlerror());
        exit(1);
    }
    return address;
}

/* A symbol of a function that got another one whenever its row grew, and the numbers in its row. */
struct grown {
    const char *symbol;
    size_t out;
};

/* The symbol that gatecount.h has, then those of earlier counters, the latest first. */
static const struct grown judges[] = {{"gate_judge_row4", 4}, {"gate_judge", 3}, {NULL, 0}};
static const struct grown counts[] = {{"gate_count_row69", 69}, {"gate_count", 68}, {NULL, 0}};

/* The address of the first of the symbols that the library has, and the numbers in its row. */
static void *load_grown(const char *file, const struct grown *grown, size_t *out) {
    while (grown[1].symbol != NULL && find_function(file, grown->symbol) == NULL) grown++;
    *out = grown->out;
    return load_function(file, grown->symbol);
}

/* A plan that ends after its first kind is refused at the next word where that kind is known, else at the kind's. */
static bool knows_kind(const struct library *library, int32_t kind) {
    const int32_t plan[] = {1, 1, kind};
    uint64_t out[GATE_CHECK_OUT];
    library->check(plan, 3, out);
    return out[GATE_OUT_PLACE] == 3;
}

struct library load_library(char *argument) {
    struct library library;
    char *equals = strchr(argument, '=');
    if (equals == NULL) {
        fprintf(stderr, "%s: NAME=FILE expected\n", argument);
        exit(1);
    }
    *equals = '\0';
    library.name = argument;
    /* POSIX's way from dlsym's pointer to a function */
    *(void **)&library.check = load_function(equals + 1, "gate_check");
    *(void **)&library.judge = load_grown(equals + 1, judges, &library.judge_out);
    *(void **)&library.count = load_grown(equals + 1, counts, &library.count_out);
    library.last_kind = 0;
    while (library.last_kind < LAST_KIND && knows_kind(&library, library.last_kind + 1)) library.last_kind++;
    return library;
}
