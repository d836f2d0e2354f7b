/*
 * table.c: an input through the whole programs `gatecount` and `gatesheet`, and its table through the compiler and the counter.
 *
 * The programs are linked under other names: their `main` is gatecount_main and gatesheet_main, and what they read and write with
 * is given_read and printed_write. What they print must be what is put together here from the compiler's answer, the plain
 * counter, and the names and parents of an accepted table.
 */
#include <errno.h>
#include <inttypes.h>
#include <stdio.h>
#include <string.h>
#include <sys/types.h>

#include "gatecompile.h"
#include "gatecount.h"
#include "tries.h"

enum { INPUT_BYTES = 65536, COUNTS = 8192, SHEET = 1300000, TOLD = 8192, VALUES = 65536, LISTS = INPUT_BYTES / 7, UNTOUCHED = 2100000000 };

/* ---- The programs' reading and writing ---- */

int gatecount_main(int argc, char **argv);
int gatesheet_main(int argc, char **argv);

struct program {
    char *name;
    int (*start)(int argc, char **argv);
    size_t most; /* bytes that it may print */
};
static const struct program GATECOUNT = {"gatecount", gatecount_main, COUNTS}, GATESHEET = {"gatesheet", gatesheet_main, SHEET};

static struct {
    const uint8_t *data;
    size_t size, at, piece; /* no read and no write is longer than a piece */
    int bad_read, bad_write;
    char printed[SHEET], told[TOLD];
    size_t printed_len, printed_most, told_len;
} run;

ssize_t given_read(int fd, void *into, size_t room)
{
    MUST(fd == 0);
    size_t length = run.size - run.at;
    if (run.bad_read && (length == 0 || run.at > 0)) {
        errno = EIO;
        return -1;
    }
    if (length > room)
        length = room;
    if (length > run.piece)
        length = run.piece;
    if (length)
        memcpy(into, run.data + run.at, length);
    run.at += length;
    return (ssize_t)length;
}

ssize_t printed_write(int fd, const void *from, size_t length)
{
    MUST(fd == 1 || fd == 2);
    if (fd == 1 && run.bad_write) {
        errno = ENOSPC;
        return -1;
    }
    char *into = fd == 1 ? run.printed : run.told;
    size_t *at = fd == 1 ? &run.printed_len : &run.told_len;
    if (length > run.piece)
        length = run.piece;
    MUST(*at + length <= (fd == 1 ? run.printed_most : TOLD));
    memcpy(into + *at, from, length);
    *at += length;
    return (ssize_t)length;
}

/* Runs a program; its exit status. */
static int lent_run(const struct program *program, const uint8_t *data, size_t size, size_t piece, int bad_read, int bad_write)
{
    run.data = data;
    run.size = size;
    run.at = run.printed_len = run.told_len = 0;
    run.printed_most = program->most;
    run.piece = piece;
    run.bad_read = bad_read;
    run.bad_write = bad_write;
    return program->start(1, (char *[]){program->name, NULL});
}

/* ---- The same put together here: text ---- */

static char wanted[SHEET];
static size_t wanted_len;

static void want_text(const void *text, size_t length)
{
    MUST(length <= SHEET - wanted_len);
    memcpy(wanted + wanted_len, text, length);
    wanted_len += length;
}

/* A tab and a number. */
static void want_number(uint64_t number)
{
    char text[24];
    want_text(text, (size_t)snprintf(text, sizeof text, "\t%" PRIu64, number));
}

/* A line with one number. */
static void want(const void *name, size_t name_len, uint64_t count)
{
    want_text(name, name_len);
    want_number(count);
    want_text("\n", 1);
}

static void want_refused(uint64_t number, uint64_t place)
{
    wanted_len = 0;
    want_text("refused", 7);
    want_number(number);
    want_number(place);
    want_text("\n", 1);
}

/* ---- Reading an input ---- */

/* Where the line that begins at `at` ends: its LF, or the end of the input. */
static size_t line_end(const uint8_t *data, size_t size, size_t at)
{
    while (at < size && data[at] != '\n')
        at++;
    return at;
}

/* Where the field that begins at `at` ends in a line that ends at `end`. */
static size_t field_end(const uint8_t *data, size_t end, size_t at)
{
    while (at < end && data[at] != '\t')
        at++;
    return at;
}

/* A well-written number, one beyond 32 bits as one that spoils its event; 0 where it is not well written. */
static int number(const uint8_t *field, size_t length, int32_t *value)
{
    size_t i = length > 0 && field[0] == '-';
    int negative = (int)i;
    if (i == length || (field[i] == '0' && length > 1))
        return 0;
    int64_t sum = 0;
    for (; i < length; i++) {
        if (field[i] < '0' || field[i] > '9')
            return 0;
        sum = 10 * sum + (field[i] - '0');
        if (sum > INT32_MAX)
            sum = INT32_MAX;
    }
    *value = (int32_t)(negative ? -sum : sum);
    return 1;
}

static int32_t values[VALUES];

/* Reads an event line without its LF; 0 where it does not have n good numbers. */
static int event(const uint8_t *data, size_t at, size_t end, int32_t n, int32_t *into)
{
    for (int32_t i = 0;; i++) {
        size_t stop = field_end(data, end, at);
        if (i == n || !number(data + at, stop - at, &into[i]))
            return 0;
        if (stop == end)
            return i + 1 == n;
        at = stop + 1;
    }
}

/* Whether the line from `at` to before `end` begins a list. */
static int opens_list(const uint8_t *data, size_t at, size_t end)
{
    return end - at == 6 && memcmp(data + at, "events", 6) == 0;
}

struct field {
    const uint8_t *at;
    size_t length;
};

static int same_field(struct field one, struct field other)
{
    return one.length == other.length && memcmp(one.at, other.at, one.length) == 0;
}

/* The regions of an accepted table: the name, and the parent in the line. */
static struct region {
    struct field name, parent;
} regions[GATE_REGIONS];
static size_t regions_len;

static void add_region(struct field name, struct field parent)
{
    MUST(regions_len < GATE_REGIONS);
    regions[regions_len++] = (struct region){name, parent};
}

static void find_regions(const uint8_t *table, size_t size)
{
    regions_len = 0;
    for (size_t at = line_end(table, size, 0) + 1; at < size;) {
        size_t end = line_end(table, size, at);
        struct field field[600];
        int fields = 0;
        for (size_t from = at; from <= end && fields < 600; from += field[fields++].length + 1)
            field[fields] = (struct field){table + from, field_end(table, end, from) - from};
        if (!same_field(field[0], (struct field){(const uint8_t *)"quad", 4})) {
            add_region(field[1], field[2]);
        } else {
            int dividers = *field[3].at - '0', i = 4;
            for (int k = 0; k < dividers; k++)
                i += 2 + (*field[i + 1].at - '0');
            for (; i < fields; i += 1 + dividers)
                add_region(field[i], field[2]);
        }
        at = end + 1;
    }
}

/* The number of a region's parent, by its name in the region's line. */
static int32_t parent_of(size_t region)
{
    if (same_field(regions[region].parent, (struct field){(const uint8_t *)"-", 1}))
        return GATE_NO_PARENT;
    for (size_t i = 0; i < regions_len; i++)
        if (same_field(regions[i].name, regions[region].parent))
            return (int32_t)i;
    MUST(!"a parent that is a region");
    return 0;
}

/* ---- Compiling ---- */

static struct room table_room, slice_room, compile_out_room;

/* Compiles into a slice of `room` words and tests that no other word is changed; the slice. */
static int32_t *compiled(const uint8_t *table, size_t size, size_t room, uint64_t out[4], int at_start)
{
    int32_t *slice = lend(&slice_room, room * sizeof *slice, at_start);
    uint64_t *lent_out = lend(&compile_out_room, GATE_COMPILE_OUT * sizeof *out, at_start);
    for (size_t i = 0; i < room; i++)
        slice[i] = UNTOUCHED;
    memset(lent_out, 0xa5, GATE_COMPILE_OUT * sizeof *out);
    gate_compile(table, size, slice, room, lent_out);
    memcpy(out, lent_out, GATE_COMPILE_OUT * sizeof *out);
    MUST(out[GATE_COMPILE_REFUSAL] <= 18);
    if (out[GATE_COMPILE_REFUSAL] != 0) {
        MUST(out[GATE_COMPILE_WORDS] == 0);
        MUST(out[GATE_COMPILE_REGIONS] == 0);
    } else {
        MUST(out[GATE_COMPILE_PLACE] == 0);
        MUST(out[GATE_COMPILE_WORDS] >= 2 && out[GATE_COMPILE_WORDS] <= room);
    }
    for (size_t i = out[GATE_COMPILE_WORDS]; i < room; i++)
        MUST(slice[i] == UNTOUCHED);
    return slice;
}

/* The table by itself; the words of its plan, 0 where it is refused. */
static size_t compiling(const uint8_t *table, size_t size, int32_t plan[GATE_MAX_WORDS], uint64_t out[4], uint64_t seed)
{
    int at_start = (int)(seed & 1);
    uint8_t *lent = lend(&table_room, size, at_start);
    if (size)
        memcpy(lent, table, size);
    uint64_t again[4];
    int32_t *slice = compiled(lent, size, GATE_MAX_WORDS, out, at_start);
    size_t words = (size_t)out[GATE_COMPILE_WORDS];
    if (words == 0) {
        /* Refusals 1 to 17 are those of every slice. */
        MUST(out[GATE_COMPILE_REFUSAL] < 18);
        if (seed % 4 == 0) {
            compiled(lent, size, seed / 4 % 16, again, at_start);
            MUST(memcmp(again, out, sizeof again) == 0);
        }
    } else {
        memcpy(plan, slice, words * sizeof *plan);
        if (seed % 4 < 2) {
            slice = compiled(lent, size, words, again, at_start);
            MUST(memcmp(again, out, sizeof again) == 0);
            MUST(memcmp(slice, plan, words * sizeof *plan) == 0);
        } else {
            compiled(lent, size, seed % 4 == 2 ? words - 1 : seed / 4 % words, again, at_start);
            MUST(again[GATE_COMPILE_REFUSAL] == 18 && again[GATE_COMPILE_PLACE] == 0);
        }
    }
    MUST(size == 0 || memcmp(lent, table, size) == 0);
    return words;
}

/* ---- One input ---- */

/* The table of an input, which ends before the first line `events`. */
static struct {
    size_t size;
    uint64_t lines;
    uint64_t refusal, place; /* what the input is refused with before its lists are read; 0 where it is not */
    int32_t plan[GATE_MAX_WORDS];
    size_t words;
} table;

static void compile_input(const uint8_t *data, size_t size, uint64_t seed)
{
    uint64_t out[4];
    table.size = table.lines = 0;
    while (table.size < size) {
        size_t end = line_end(data, size, table.size);
        if (opens_list(data, table.size, end))
            break;
        table.size = end < size ? end + 1 : size;
        table.lines++;
    }
    table.words = compiling(data, table.size, table.plan, out, seed);
    table.refusal = size > INPUT_BYTES ? 1 : out[GATE_COMPILE_REFUSAL];
    table.place = size > INPUT_BYTES ? 0 : out[GATE_COMPILE_PLACE];
    if (table.refusal != 0)
        return;
    MUST(out[GATE_COMPILE_REGIONS] == (uint64_t)table.plan[1]);
    find_regions(data, table.size);
    MUST(out[GATE_COMPILE_REGIONS] == regions_len);
    for (size_t at = 2; at < table.words; at += 4 + (size_t)table.plan[at + 3])
        MUST(table.plan[at + 2] == parent_of((size_t)table.plan[at + 1]));
    MUST(same_answers(table.plan, table.words, values, 0));
    same_on_near_events(table.plan, table.words, seed);
}

/* The first field, from 0, at which the line from `at` to before `end` differs from the names of the head; -1 where none does. */
static int wrong_field(const uint8_t *data, size_t at, size_t end)
{
    size_t head_end = line_end(data, table.size, 0), head = field_end(data, head_end, 0) + 1;
    for (int field = 0;; field++) {
        struct field one = {data + at, field_end(data, end, at) - at}, other = {data + head, field_end(data, head_end, head) - head};
        if (!same_field(one, other))
            return field;
        at += one.length + 1;
        head += other.length + 1;
        if (at > end || head > head_end)
            return at > end && head > head_end ? -1 : field + 1;
    }
}

/* The place of 31, that of the first wrong column line, where each `events` may open a list or only the first; -1 where all are right. */
static int wrong_columns(const uint8_t *data, size_t size, int several)
{
    int place = -1;
    for (size_t at = table.size; at < size && place < 0;) {
        size_t end = line_end(data, size, at);
        int opens = opens_list(data, at, end) && (several || at == table.size);
        at = end + 1;
        if (opens && end < size) {
            end = line_end(data, size, at);
            place = wrong_field(data, at, end);
            at = end + 1;
        }
    }
    return place;
}

/* Puts together what `gatecount` must print. */
static void want_counts(const uint8_t *data, size_t size)
{
    uint64_t tally[GATE_COUNT_OUT], line = table.lines + 1;
    size_t length = 0;
    if (table.refusal != 0) {
        want_refused(table.refusal, table.place);
        return;
    }
    if (table.size < size) {
        size_t at = table.size + 7;
        int place = wrong_columns(data, size, 0);
        if (place >= 0) {
            want_refused(31, (uint64_t)place);
            return;
        }
        /* The column line, which is right, and its LF. */
        if (at <= size) {
            at = line_end(data, size, at) + 1;
            line++;
        }
        if (at > size) {
            want_refused(23, line);
            return;
        }
        while (at < size) {
            size_t end = line_end(data, size, at);
            line++;
            /* A list of 65,536 bytes has fewer values than there is room for, but a bad line may have n more. */
            MUST(length + 8 <= VALUES);
            if (end == size || !event(data, at, end, table.plan[0], values + length)) {
                want_refused(23, line);
                return;
            }
            length += (size_t)table.plan[0];
            at = end + 1;
        }
    }
    MUST(same_answers(table.plan, table.words, values, length));
    plain_count(table.plan, table.words, values, length, tally);
    MUST(tally[GATE_OUT_REFUSAL] == 0);
    wanted_len = 0;
    for (size_t i = 0; i < regions_len; i++)
        want(regions[i].name.at, regions[i].name.length, tally[GATE_OUT_COUNTS + i]);
    want("taken", 5, tally[GATE_OUT_TAKEN]);
    want("spoilt", 6, tally[GATE_OUT_SPOILT_COUNT]);
}

/* What is counted in each list, and in one that has all their events. */
static uint64_t tallies[LISTS][GATE_COUNT_OUT], joined[GATE_COUNT_OUT];
static size_t lists;

/* A name, a number of each list, and the sum. */
static void want_columns(const void *name, size_t name_len, size_t number)
{
    uint64_t sum = 0;
    want_text(name, name_len);
    for (size_t i = 0; i < lists; i++) {
        want_number(tallies[i][number]);
        sum += tallies[i][number];
    }
    MUST(sum == joined[number]);
    want_number(sum);
}

/* Puts together what `gatesheet` must print. */
static void want_sheet(const uint8_t *data, size_t size)
{
    static size_t starts[LISTS + 1]; /* where a list begins among the values */
    size_t length = 0;
    uint64_t line = table.lines;
    if (table.refusal != 0) {
        want_refused(table.refusal, table.place);
        return;
    }
    int place = wrong_columns(data, size, 1), columns = 0; /* whether the next line is a column line */
    if (place >= 0) {
        want_refused(31, (uint64_t)place);
        return;
    }
    lists = 0;
    for (size_t at = table.size; at < size;) {
        size_t end = line_end(data, size, at);
        int opens = !columns && opens_list(data, at, end);
        line++;
        MUST(length + 8 <= VALUES);
        if (end == size || (!opens && !columns && !event(data, at, end, table.plan[0], values + length))) {
            want_refused(23, line);
            return;
        }
        if (opens)
            starts[lists++] = length;
        else if (!columns)
            length += (size_t)table.plan[0];
        columns = opens;
        at = end + 1;
    }
    starts[lists] = length;
    /* One list is that of `gatecount`. */
    MUST(lists == 1 || same_answers(table.plan, table.words, values, length));
    plain_count(table.plan, table.words, values, length, joined);
    for (size_t i = 0; i < lists; i++) {
        plain_count(table.plan, table.words, values + starts[i], starts[i + 1] - starts[i], tallies[i]);
        MUST(tallies[i][GATE_OUT_REFUSAL] == 0);
    }
    wanted_len = 0;
    for (size_t i = 0; i < regions_len; i++) {
        int32_t parent = parent_of(i);
        want_columns(regions[i].name.at, regions[i].name.length, GATE_OUT_COUNTS + i);
        want_number(joined[GATE_OUT_COUNTS + i]);
        want_number(joined[parent == GATE_NO_PARENT ? GATE_OUT_TAKEN : GATE_OUT_COUNTS + parent]);
        want_text("\n", 1);
    }
    want_columns("taken", 5, GATE_OUT_TAKEN);
    want_text("\n", 1);
    want_columns("unclaimed", 9, GATE_OUT_UNCLAIMED);
    want_text("\n", 1);
    want_columns("spoilt", 6, GATE_OUT_SPOILT_COUNT);
    want_text("\n", 1);
    want("events", 6, length / (size_t)table.plan[0]);
}

/* Runs a program, which must print what is wanted. */
static void same_printed(const struct program *program, const uint8_t *data, size_t size, uint64_t seed)
{
    size_t piece = seed % 4 ? (size_t)1 << 22 : 1 + seed % 5000;
    MUST(lent_run(program, data, size, piece, 0, 0) == 0);
    MUST(run.told_len == 0);
    MUST(run.printed_len == wanted_len);
    MUST(memcmp(run.printed, wanted, wanted_len) == 0);
    /* Where reading or writing fails, it is told, the exit status is not 0, and nothing is printed. */
    for (int reading = 0; seed % 16 == 0 && size <= INPUT_BYTES && reading < 2; reading++) {
        MUST(lent_run(program, data, size, piece, reading, !reading) != 0);
        MUST(run.printed_len == 0);
        MUST(run.told_len > 7 && memcmp(run.told, "Error: ", 7) == 0);
    }
}

void try_table(const uint8_t *data, size_t size)
{
    uint64_t seed = hash_of(data, size);
    compile_input(data, size, seed);
    want_counts(data, size);
    same_printed(&GATECOUNT, data, size, seed);
    want_sheet(data, size);
    same_printed(&GATESHEET, data, size, seed);
}
