/*
 * stack: the bytes of stack that gate_check, gate_judge and gate_count use below their caller. Each is called in a
 * thread whose stack was painted before; the lowest byte that lost its paint tells. Plans of all kinds are tried.
 */
#define _POSIX_C_SOURCE 200809L

#include "plans.h"

#include <pthread.h>
#include <stdio.h>
#include <stdlib.h>
#include <string.h>

enum { STACK_BYTES = 1 << 18, PAINT = 0xA5, EVENTS = 100, MAX_N = 8 };

enum function { CHECK, JUDGE, COUNT };

/* One call, and where its caller's frame was. */
struct call {
    enum function function;
    const struct plan *plan;
    const int32_t *events;
    size_t events_len;
    uint64_t out[GATE_COUNT_OUT];
    char *frame;
};

static void *run(void *argument) {
    struct call *call = argument;
    const struct plan *plan = call->plan;
    call->frame = __builtin_frame_address(0);
    switch (call->function) {
    case CHECK: gate_check(plan->words, plan->len, call->out); break;
    case JUDGE: gate_judge(plan->words, plan->len, call->events, (size_t)plan->words[0], call->out); break;
    case COUNT: gate_count(plan->words, plan->len, call->events, call->events_len, call->out); break;
    }
    return NULL;
}

static size_t stack_of(struct call *call) {
    static char *stack;
    pthread_attr_t attributes;
    pthread_t thread;
    if (stack == NULL && posix_memalign((void **)&stack, 4096, STACK_BYTES) != 0) exit(1);
    memset(stack, PAINT, STACK_BYTES);
    pthread_attr_init(&attributes);
    if (pthread_attr_setstack(&attributes, stack, STACK_BYTES) != 0) exit(1);
    if (pthread_create(&thread, &attributes, run, call) != 0) exit(1);
    pthread_join(thread, NULL);
    pthread_attr_destroy(&attributes);
    const char *lowest = stack;
    while ((unsigned char)*lowest == PAINT) lowest++;
    return (size_t)(call->frame - lowest);
}

int main(void) {
    static const char *const names[] = {"gate_check", "gate_judge", "gate_count"};
    static struct plan plan;
    static int32_t events[EVENTS * MAX_N];
    size_t most[3] = {0};
    struct random random = seeded(6);
    for (int i = 0; i < 300; i++) {
        switch (i) {
        case 0: boxes_load(&plan, MAX_N, GATE_REGIONS, true); break;
        case 1: combinations_load(&plan, MAX_N); break;
        case 2: polygon_load(&plan, 256); break;
        case 3: ellipses_load(&plan, 8); break;
        case 4: decimal_ellipses_load(&plan, 8); break;
        case 5: ellipsoids_load(&plan, 8); break;
        default: random_plan(&random, &plan);
        }
        int n = plan.words[0];
        for (int j = 0; j < EVENTS; j++) random_event(&random, &plan, events + j * n);
        for (int function = CHECK; function <= COUNT; function++) {
            struct call call = {function, &plan, events, (size_t)(EVENTS * n), {0}, NULL};
            size_t used = stack_of(&call);
            if (used > most[function]) most[function] = used;
        }
    }
    for (int function = CHECK; function <= COUNT; function++) printf("%-12s %6zu\n", names[function], most[function]);
    return 0;
}
