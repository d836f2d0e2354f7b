/*
 * counter.c: the proved counter beside the plain one in C, on lent memory with nothing around it.
 */
#define _DEFAULT_SOURCE
#include <stdio.h>
#include <stdlib.h>
#include <string.h>
#include <sys/mman.h>

#include "gatecount.h"
#include "tries.h"

enum { PAGE = 4096, NEAR_EVENTS = 16, MOST_JUDGED = 64 };

_Noreturn void broken(const char *fact, const char *file, int line)
{
    fprintf(stderr, "%s:%d: does not hold: %s\n", file, line, fact);
    abort();
}

void *lend(struct room *room, size_t size, int at_start)
{
    if (size > room->size || !room->start) {
        size_t whole = (size + PAGE) / PAGE * PAGE;
        if (room->start)
            munmap(room->start - PAGE, room->size + 2 * PAGE);
        uint8_t *all = mmap(NULL, whole + 2 * PAGE, PROT_NONE, MAP_PRIVATE | MAP_ANONYMOUS, -1, 0);
        if (all == MAP_FAILED || mprotect(all + PAGE, whole, PROT_READ | PROT_WRITE) != 0) {
            perror("memory");
            exit(2);
        }
        room->start = all + PAGE;
        room->size = whole;
    }
    return at_start ? room->start : room->start + room->size - size;
}

uint64_t hash_of(const uint8_t *data, size_t size)
{
    uint64_t hash = 14695981039346656037u;
    for (size_t i = 0; i < size; i++)
        hash = (hash ^ data[i]) * 1099511628211u;
    return hash;
}

uint64_t next_of(uint64_t *state)
{
    *state = *state * 6364136223846793005u + 1442695040888963407u;
    return *state >> 33;
}

/* Words on lent memory, a copy of those given. */
static int32_t *copy_in(struct room *room, const int32_t *words, size_t length, int at_start)
{
    int32_t *copy = lend(room, length * sizeof *copy, at_start);
    if (length)
        memcpy(copy, words, length * sizeof *copy);
    return copy;
}

static void same_words(const int32_t *copy, const int32_t *words, size_t length)
{
    MUST(length == 0 || memcmp(copy, words, length * sizeof *copy) == 0);
}

static struct room plan_room, values_room, out_room;

/* One event judged by both: 1 where it is not refused, and its bits. Only members may be on an outline. */
static int judged(const int32_t *plan, size_t plan_len, const int32_t *event, size_t length, int at_start, uint64_t *bits)
{
    uint64_t *out = lend(&out_room, GATE_JUDGE_OUT * sizeof *out, at_start), plain[GATE_JUDGE_OUT];
    memset(out, 0xa5, sizeof plain);
    gate_judge(plan, plan_len, event, length, out);
    plain_judge(plan, plan_len, event, length, plain);
    MUST((out[GATE_OUT_OUTLINE] & ~out[GATE_OUT_BITS]) == 0);
    MUST(memcmp(out, plain, sizeof plain) == 0);
    *bits = out[GATE_OUT_BITS];
    return out[GATE_OUT_REFUSAL] == GATE_PASSES;
}

int same_answers(const int32_t *plan_given, size_t plan_len, const int32_t *values_given, size_t values_len)
{
    int at_start = (plan_len ^ values_len) & 1;
    int32_t *plan = copy_in(&plan_room, plan_given, plan_len, at_start);
    int32_t *values = copy_in(&values_room, values_given, values_len, at_start);

    uint64_t *out = lend(&out_room, GATE_CHECK_OUT * sizeof *out, at_start), plain[GATE_COUNT_OUT];
    memset(out, 0xa5, GATE_CHECK_OUT * sizeof *out);
    gate_check(plan, plan_len, out);
    plain_check(plan, plan_len, plain);
    MUST(memcmp(out, plain, GATE_CHECK_OUT * sizeof *out) == 0);
    int passes = out[GATE_OUT_REFUSAL] == GATE_PASSES;

    out = lend(&out_room, GATE_COUNT_OUT * sizeof *out, at_start);
    memset(out, 0xa5, sizeof plain);
    gate_count(plan, plan_len, values, values_len, out);
    plain_count(plan, plan_len, values, values_len, plain);
    MUST(memcmp(out, plain, sizeof plain) == 0);

    /* One by one, and the whole list as if it were one event. */
    uint64_t bits;
    judged(plan, plan_len, values, values_len, at_start, &bits);
    if (passes) {
        size_t n = (size_t)plan[0], events = values_len / n;
        uint64_t counts[GATE_REGIONS] = {0}, unclaimed = 0;
        for (size_t i = 0; i < events && i < MOST_JUDGED; i++) {
            int taken = judged(plan, plan_len, values + i * n, n, at_start, &bits);
            for (int r = 0; r < GATE_REGIONS; r++)
                counts[r] += bits >> r & 1;
            unclaimed += taken && bits == 0;
        }
        if (events <= MOST_JUDGED && values_len % n == 0) {
            MUST(memcmp(counts, plain + GATE_OUT_COUNTS, sizeof counts) == 0);
            MUST(unclaimed == plain[GATE_OUT_UNCLAIMED]);
        }
    }
    same_words(plan, plan_given, plan_len);
    same_words(values, values_given, values_len);
    return passes;
}

/* Puts an event on a vertex of a step of the plan, where that step is a polygon. */
static void put_on_vertex(const int32_t *plan, int32_t *event, uint64_t *seed)
{
    const int32_t *step = plan + 2;
    if (plan[1] == 0)
        return;
    for (uint64_t steps = next_of(seed) % (uint64_t)plan[1]; steps > 0; steps--)
        step += 4 + step[3];
    if (step[0] == GATE_POLYGON) {
        const int32_t *body = step + 4, *vertex = body + 2 + 2 * (next_of(seed) % (uint64_t)(step[3] / 2 - 1));
        event[body[0]] = vertex[0];
        event[body[1]] = vertex[1];
    }
}

void same_on_near_events(const int32_t *plan, size_t plan_len, uint64_t seed)
{
    static const int32_t far[] = {-65537, -65536, 65535, 65536, 0, INT32_MIN, INT32_MAX};
    int32_t values[NEAR_EVENTS * 8];
    size_t n = (size_t)plan[0], length = NEAR_EVENTS * n;
    for (size_t i = 0; i < length; i++) {
        uint64_t chance = next_of(&seed);
        int32_t word = plan[next_of(&seed) % plan_len];
        if (chance % 64 == 0)
            word = far[chance / 64 % 7];
        else if (chance % 4 == 0 && word > -65536 && word < 65535)
            word += chance / 4 % 2 ? 1 : -1;
        values[i] = word;
    }
    for (size_t i = 0; i < NEAR_EVENTS; i += 2)
        put_on_vertex(plan, values + i * n, &seed);
    MUST(same_answers(plan, plan_len, values, length));
    if (n > 1)
        same_answers(plan, plan_len, values, length - 1);
}
