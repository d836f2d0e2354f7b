/*
 * fuzz_table.c: libFuzzer over try_table. Half of the changes are libFuzzer's own, of bytes; the others are of fields and lines.
 */
#include <stdio.h>
#include <stdlib.h>
#include <string.h>

#include "tries.h"

size_t LLVMFuzzerMutate(uint8_t *data, size_t size, size_t most);

int LLVMFuzzerTestOneInput(const uint8_t *data, size_t size)
{
    try_table(data, size);
    return 0;
}

/* A part of the input, from `at` to before `end`. */
struct part {
    size_t at, end;
};

static struct part any_field(const uint8_t *data, size_t size, uint64_t *state)
{
    struct part field;
    field.at = size ? next_of(state) % size : 0;
    while (field.at > 0 && data[field.at - 1] != '\t' && data[field.at - 1] != '\n')
        field.at--;
    field.end = field.at;
    while (field.end < size && data[field.end] != '\t' && data[field.end] != '\n')
        field.end++;
    return field;
}

/* A line with its LF. */
static struct part any_line(const uint8_t *data, size_t size, uint64_t *state)
{
    struct part line;
    line.at = size ? next_of(state) % size : 0;
    while (line.at > 0 && data[line.at - 1] != '\n')
        line.at--;
    line.end = line.at;
    while (line.end < size && data[line.end] != '\n')
        line.end++;
    line.end += line.end < size;
    return line;
}

/* Puts a text in the place of a part; the new size, or the old one where there is no room. */
static size_t put(uint8_t *data, size_t size, size_t most, struct part part, const void *text, size_t length)
{
    size_t left = size - (part.end - part.at);
    if (left + length > most)
        return size;
    memmove(data + part.at + length, data + part.end, size - part.end);
    memcpy(data + part.at, text, length);
    return left + length;
}

static const char *const WORDS[] = {
    "-", "*", "0", "1", "2", "3", "-1", "65535", "65536", "-65535", "-65536", "-65537", "16777216", "-16777216", "16777217",
    "-16777217", "4096", "4097", "2147483648", "-0", "01", "", "A", "B", "C", "R", "Q", "!R", "rect", "poly", "ellip", "ellip3",
    "quad", "and", "or", "not", "dims", "events", "Abcdefghijklmnop", "Abcdefghijklmnopq", "0.001", "0.0", "-0.5", "-0.0", "1134.5",
    "2000000.000", "2000000.001", "2000000", "2000001", "4096.0", "4096.001", "1.2345", "1.", ".5",
};

size_t LLVMFuzzerCustomMutator(uint8_t *data, size_t size, size_t most, unsigned seed)
{
    static uint8_t kept[1 << 17];
    uint64_t state = seed;
    if (size == 0 || size >= sizeof kept || next_of(&state) % 2)
        return LLVMFuzzerMutate(data, size, most);
    for (uint64_t times = 1 + next_of(&state) % 3; times > 0 && size > 0; times--) {
        uint64_t kind = next_of(&state) % 9;
        struct part field = any_field(data, size, &state), line = any_line(data, size, &state), other;
        char text[32];
        size_t length;
        switch (kind) {
        case 0: /* a field becomes a word */
            strcpy(text, WORDS[next_of(&state) % (sizeof WORDS / sizeof *WORDS)]);
            size = put(data, size, most, field, text, strlen(text));
            break;
        case 1: /* a field becomes another one of the input, perhaps with `!` before it */
            other = any_field(data, size, &state);
            length = other.end - other.at;
            kept[0] = '!';
            memcpy(kept + 1, data + other.at, length);
            size = next_of(&state) % 4 ? put(data, size, most, field, kept + 1, length) : put(data, size, most, field, kept, length + 1);
            break;
        case 2: /* a number grows or shrinks by one */
            length = field.end - field.at;
            if (length == 0 || length > 9)
                break;
            memcpy(text, data + field.at, length);
            text[length] = 0;
            length = (size_t)snprintf(text, sizeof text, "%d", atoi(text) + (next_of(&state) % 2 ? 1 : -1));
            size = put(data, size, most, field, text, length);
            break;
        case 3: /* a field more, or one less */
            if (next_of(&state) % 2) {
                field.at = field.end;
                size = put(data, size, most, field, "\t5", 2);
            } else {
                field.at -= field.at > 0;
                size = put(data, size, most, field, "", 0);
            }
            break;
        case 4: /* a line less */
            size = put(data, size, most, line, "", 0);
            break;
        case 5: /* a line goes, or is copied, before another one */
        case 6:
            other = any_line(data, size, &state);
            length = line.end - line.at;
            memcpy(kept, data + line.at, length);
            if (kind == 5) {
                if (other.at > line.at)
                    other.at -= length;
                size = put(data, size, most, line, "", 0);
            }
            other.end = other.at;
            size = put(data, size, most, other, kept, length);
            break;
        case 7: /* a list begins before a line, mostly with what stands behind the first field of line 1 as its column line */
            memcpy(kept, "events\n", 7);
            length = 7;
            other.at = 0;
            while (other.at < size && data[other.at] != '\t' && data[other.at] != '\n')
                other.at++;
            other.end = ++other.at;
            while (other.end < size && data[other.end] != '\n')
                other.end++;
            if (next_of(&state) % 4 && other.end < size && other.end - other.at < 200) {
                memcpy(kept + length, data + other.at, other.end + 1 - other.at);
                length += other.end + 1 - other.at;
            }
            line.end = line.at;
            size = put(data, size, most, line, kept, length);
            break;
        default: /* a copy of a line with a new name */
            memcpy(kept, data + line.at, line.end - line.at);
            length = line.end - line.at;
            other.at = 0;
            while (other.at < length && kept[other.at] != '\t')
                other.at++;
            other.at += other.at < length;
            other.end = other.at;
            while (other.end < length && kept[other.end] != '\t')
                other.end++;
            snprintf(text, sizeof text, "N%u", (unsigned)(next_of(&state) % 200));
            length = put(kept, length, sizeof kept, other, text, strlen(text));
            line.end = line.at;
            size = put(data, size, most, line, kept, length);
        }
    }
    return size;
}
