/*
 * replay.c: tries the files of folders without a fuzzer, and tells which edges of the instrumented code they reach.
 *
 *     replay {table|plan} FOLDER ..
 *
 * Environment: MISSED, a file for the addresses of the edges that are not reached.
 */
#include <dirent.h>
#include <stdio.h>
#include <stdlib.h>
#include <string.h>

#include "tries.h"

enum { BYTES = 1 << 18 };

/* ---- What instrumented code calls: https://clang.llvm.org/docs/SanitizerCoverage.html ---- */

static uint8_t *counters, *counters_end;
static const uintptr_t *places; /* of each edge its address and 1 where a function begins */

void __sanitizer_cov_8bit_counters_init(uint8_t *start, uint8_t *end)
{
    counters = start;
    counters_end = end;
}

void __sanitizer_cov_pcs_init(const uintptr_t *start, const uintptr_t *end)
{
    places = start;
    (void)end;
}

#define IGNORED(name, type) void name(type a, type b) { (void)a; (void)b; }
IGNORED(__sanitizer_cov_trace_cmp1, uint8_t)
IGNORED(__sanitizer_cov_trace_cmp2, uint16_t)
IGNORED(__sanitizer_cov_trace_cmp4, uint32_t)
IGNORED(__sanitizer_cov_trace_cmp8, uint64_t)
IGNORED(__sanitizer_cov_trace_const_cmp1, uint8_t)
IGNORED(__sanitizer_cov_trace_const_cmp2, uint16_t)
IGNORED(__sanitizer_cov_trace_const_cmp4, uint32_t)
IGNORED(__sanitizer_cov_trace_const_cmp8, uint64_t)
void __sanitizer_cov_trace_switch(uint64_t value, uint64_t *cases) { (void)value; (void)cases; }

/* Counters wrap at 256, so reached edges are kept after each input. */
static uint8_t *reached;

static void keep_reached(void)
{
    size_t edges = (size_t)(counters_end - counters);
    if (edges && !reached)
        reached = calloc(edges, 1);
    for (size_t i = 0; i < edges; i++) {
        reached[i] |= counters[i] != 0;
        counters[i] = 0;
    }
}

static void tell_edges(void)
{
    size_t edges = (size_t)(counters_end - counters), count = 0;
    FILE *missed = getenv("MISSED") ? fopen(getenv("MISSED"), "w") : NULL;
    for (size_t i = 0; i < edges; i++) {
        count += reached[i];
        if (missed && !reached[i])
            fprintf(missed, "%#lx\n", (unsigned long)places[2 * i]);
    }
    if (missed)
        fclose(missed);
    if (edges)
        printf("%zu of %zu edges\n", count, edges);
}

static long try_folder(const char *what, const char *folder)
{
    static uint8_t data[BYTES];
    DIR *listing = opendir(folder);
    long files = 0;
    if (!listing) {
        perror(folder);
        exit(2);
    }
    for (struct dirent *entry; (entry = readdir(listing));) {
        char path[4096];
        if (entry->d_name[0] == '.')
            continue;
        snprintf(path, sizeof path, "%s/%s", folder, entry->d_name);
        FILE *file = fopen(path, "rb");
        if (!file) {
            perror(path);
            exit(2);
        }
        size_t size = fread(data, 1, BYTES, file);
        fclose(file);
        (strcmp(what, "table") == 0 ? try_table : try_plan)(data, size);
        keep_reached();
        files++;
    }
    closedir(listing);
    return files;
}

int main(int argc, char **argv)
{
    for (int i = 1; i + 1 < argc; i += 2)
        printf("%s: %ld inputs tried\n", argv[i], try_folder(argv[i], argv[i + 1]));
    tell_edges();
    return 0;
}
