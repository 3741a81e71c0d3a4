#include "printer.h"

#include <stdlib.h>
#include <string.h>

/* A line as it grows. */
struct line {
    char *bytes;
    size_t length, room;
};

static void add(struct line *line, const char *bytes, size_t count)
{
    if (line->room - line->length < count) {
        line->room = line->room * 2 + count + 4096;
        line->bytes = realloc(line->bytes, line->room);
        if (!line->bytes)
            abort();
    }
    memcpy(line->bytes + line->length, bytes, count);
    line->length += count;
}

/* "with one space between fields": each field but the first stands behind a space */
static void field(struct line *line, const char *bytes, size_t count)
{
    if (line->length)
        add(line, " ", 1);
    add(line, bytes, count);
}

static void word(struct line *line, const char *word) { field(line, word, strlen(word)); }

/* A number's decimal digits at the end of a buffer of 20, which hold any: how many there are. */
static size_t digits(uint64_t number, char buffer[20])
{
    size_t count = 0;
    do {
        buffer[19 - count++] = "0123456789"[number % 10];
        number /= 10;
    } while (number);
    return count;
}

static void number_field(struct line *line, uint64_t number)
{
    char buffer[20];
    size_t count = digits(number, buffer);
    field(line, buffer + 20 - count, count);
}

/* "the vertices as x,y"; "Vertex number = y × (width + 1) + x"; a number up to the width is in the first row, whatever the width */
static void vertex_field(struct line *line, size_t width, size_t vertex)
{
    char text[41], buffer[20];
    size_t y = vertex <= width ? 0 : vertex / (width + 1);
    size_t x = vertex - y * (width + 1);
    size_t x_count = digits(x, buffer);
    memcpy(text, buffer + 20 - x_count, x_count);
    text[x_count] = ',';
    size_t y_count = digits(y, buffer);
    memcpy(text + x_count + 1, buffer + 20 - y_count, y_count);
    field(line, text, x_count + 1 + y_count);
}

static void counts(struct line *line, uint64_t expansions, uint64_t tests)
{
    word(line, "expanded");
    number_field(line, expansions);
    word(line, "tests");
    number_field(line, tests);
}

/* "net number, `path`, units, expansions, tests, then the vertices as x,y; or `none` with the two counts. A refused job prints only
   `refused`, number, `at`, place. The words `net`, `expanded`, `tests` and `at` stand as below"; 23 prints its byte too, and item 4's 26 and 27,
   "also the place in the path", print that. */
struct wexxolin_line second_line(uint64_t net, uint64_t number, uint64_t place, uint64_t second, uint64_t units,
                                 uint64_t expansions, uint64_t tests, size_t width, const wexxolin_vertex *path,
                                 size_t path_len, uint8_t *out, size_t out_len)
{
    struct line line = {0};
    if (number == 0 || number == 8) {
        word(&line, "net");
        number_field(&line, net);
        word(&line, number == 0 ? "path" : "none");
        if (number == 0)
            number_field(&line, units);
        counts(&line, expansions, tests);
        if (number == 0) {
            word(&line, "at");
            for (size_t i = 0; i < path_len; i++)
                vertex_field(&line, width == 0 ? 1 : width, path[i]);
        }
    } else {
        word(&line, "refused");
        number_field(&line, number);
        word(&line, "at");
        number_field(&line, place);
        if (number == 23 || number == 26 || number == 27)
            number_field(&line, second);
    }
    add(&line, "\n", 1); /* "Each line ends with a newline." */
    struct wexxolin_line answer = {21, 0, 0, 0};
    if (line.length <= out_len) {
        memcpy(out, line.bytes, line.length);
        answer = (struct wexxolin_line){0, 0, 0, line.length};
    }
    free(line.bytes);
    return answer;
}
