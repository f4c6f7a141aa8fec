/* lines.h: what the programs that measure read from standard input. A line is a moment, and then a frame in hexadecimal digits, or a mark and other
 * bytes, which measure.c explains. The lines up to a moment prepare the tables. Of the later lines those are measured that have the mark of the last
 * line, or none if it has none. */
#ifndef LINES_H
#define LINES_H
#include "tested.h"

enum { MOST_BYTES = 65600, FRAME = 0, SEND = '>', RESOLVE = '?', LOOK_UP = '=', CONFIRM = '!' };

static struct frame frames[MOST_FRAMES];
static uint64_t moments[MOST_FRAMES];
static char marks[MOST_FRAMES];

/* Returns the mark at the beginning of a text, FRAME if there is none. */
static inline char mark_of(const char *text)
{
    return *text == SEND || *text == RESOLVE || *text == LOOK_UP || *text == CONFIRM ? *text : FRAME;
}

static inline void require_length(char mark, size_t length)
{
    require(mark == FRAME || length >= sizeof(nd_addr), "a destination");
    require(mark == FRAME || mark == SEND || length == sizeof(nd_addr), "a destination alone");
}

static inline size_t read_lines(void)
{
    static char line[2 * MOST_BYTES + 32];
    static uint8_t bytes[MOST_BYTES];
    size_t count = 0;
    while (count < MOST_FRAMES && fgets(line, sizeof line, stdin) != NULL) {
        char *digits;
        moments[count] = strtoull(line, &digits, 10);
        digits += *digits == ' ';
        marks[count] = mark_of(digits);
        frames[count].length = bytes_of(digits + (marks[count] != FRAME), bytes, sizeof bytes);
        require_length(marks[count], frames[count].length);
        frames[count].bytes = malloc(frames[count].length + 1);
        require(frames[count].bytes != NULL, "memory for a frame");
        memcpy(frames[count].bytes, bytes, frames[count].length);
        count++;
    }
    return count;
}

/* Returns the destination that a line with a mark begins with. */
static inline nd_addr destination_of(size_t line)
{
    nd_addr destination;
    memcpy(destination.bytes, frames[line].bytes, sizeof destination.bytes);
    return destination;
}

/* Returns true if a line is measured. */
static inline bool is_measured(size_t line, size_t count, uint64_t prepared)
{
    return moments[line] > prepared && marks[line] == marks[count - 1];
}

/* Returns the end of the lines from one on that have the same mark, and are all measured or all not. */
static inline size_t end_of_run(size_t from, size_t count, uint64_t prepared)
{
    size_t end = from + 1;
    while (end < count && marks[end] == marks[from] && (moments[end] > prepared) == (moments[from] > prepared))
        end++;
    return end;
}

/* Calls `run` for lines that prepare, and `measured` for those that are measured, and returns how many of the latter are refused or dropped. Each takes
 * a node, and lines of one mark from one on to an end. */
static inline size_t run_lines(void *node, size_t count, uint64_t prepared, size_t (*run)(void *, size_t, size_t),
                               size_t (*measured)(void *, size_t, size_t))
{
    size_t refused = 0, lines = 0, end;
    for (size_t from = 0; from < count; from = end) {
        end = end_of_run(from, count, prepared);
        if (!is_measured(from, count, prepared)) {
            require(run(node, from, end) == 0, "no line that isn't measured is refused");
            continue;
        }
        refused += measured(node, from, end);
        lines += end - from;
    }
    printf("%zu lines, %zu refused or dropped\n", lines, refused);
    return refused;
}

/* Prints bytes, or a structure without padding. */
static inline void print_bytes(const void *bytes, size_t length)
{
    for (size_t i = 0; i < length; i++)
        printf("%02x", ((const uint8_t *)bytes)[i]);
    printf("\n");
}

/* Prints a record that a line gave, with its bytes. */
static inline void print_record(const nd_out *out, const uint8_t *bytes)
{
    printf("  %llu %u %u %u %u ", (unsigned long long)out->moment, out->kind, out->code, out->limit, out->changes);
    print_bytes(out->address.bytes, sizeof out->address.bytes);
    if (out->length > 0)
        print_bytes(bytes, out->length);
}

/* Prints a path, but not its lease, which each program numbers in its own way. */
static inline void print_path(const nd_path *path)
{
    printf("  %u %u %u ", path->has_mac, path->hop, path->state);
    print_bytes(path->next_hop.bytes, sizeof path->next_hop.bytes);
    print_bytes(path->mac.bytes, sizeof path->mac.bytes);
}
#endif
