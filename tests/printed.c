/* Compares the line call with the second printer, and the lines of whole jobs with the second router's.

       printed [SCALE [SEED]]

   Every request is made twice: each slice ends at a page that nobody may touch, then it begins behind one. The first difference ends
   the run with 1. */
#include "boards.h"
#include "rooms.h"
#include "second/printer.h"
#include "second/second.h"

#include <stdio.h>
#include <stdlib.h>
#include <string.h>

enum { MOST = 64 * 64, BYTES = 200000, KEPT = 0x5a };

static struct dice dice;
static uint64_t calls;
static struct room path_room, out_room;
static uint8_t ours[BYTES];
static char request[400];

static size_t below(size_t count) { return dice_below(&dice, count); }

static void differ(const char *what)
{
    fprintf(stderr, "DIFFERENCE in group 'lines'\n%s: %s\n", request, what);
    exit(1);
}

static void tell_fault(const char *where)
{
    char what[200];
    snprintf(what, sizeof what, "outside what was lent: %s", where);
    differ(what);
}

/* ---------- one line ---------- */

/* What a route or a job's read handed back, the net's number, the board's width and the path. */
struct values {
    uint64_t net, number, place, second, units, expansions, tests;
    size_t width, count;
    wexxolin_vertex path[MOST];
};

#define U(x) ((unsigned long long)(x))

static void describe(const struct values *v, size_t lent)
{
    snprintf(request, sizeof request,
             "line of net %llu, number %llu at %llu %llu, units %llu, expansions %llu, tests %llu, width %zu, %zu vertices, %zu bytes lent",
             U(v->net), U(v->number), U(v->place), U(v->second), U(v->units), U(v->expansions), U(v->tests), v->width, v->count, lent);
}

/* The second printer's line with a slice of so many bytes, which held one value. */
static struct wexxolin_line second_printed(const struct values *v, size_t lent)
{
    memset(ours, KEPT, lent);
    return second_line(v->net, v->number, v->place, v->second, v->units, v->expansions, v->tests, v->width, v->path, v->count, ours,
                       lent);
}

/* Both, with a slice of so many bytes: what they hand back, and every byte of the slice. */
static void compare(const struct values *v, size_t lent, enum flush flush)
{
    describe(v, lent);
    const wexxolin_vertex *path = room_lend(&path_room, v->count * sizeof *path, flush);
    memcpy(path_room.ours + path_room.at, v->path, v->count * sizeof *path);
    uint8_t *out = room_lend(&out_room, lent, flush);
    memset(out_room.ours + out_room.at, KEPT, lent);
    struct wexxolin_line a = wexxolin_line(v->net, v->number, v->place, v->second, v->units, v->expansions, v->tests, v->width, path,
                                           v->count, out, lent);
    struct wexxolin_line b = second_printed(v, lent);
    calls++;
    if (memcmp(&a, &b, sizeof a) != 0)
        differ("the answers differ");
    if (memcmp(out_room.ours + out_room.at, ours, lent) != 0)
        differ("what the slices hold differs");
}

/* Slices as long as the line, a byte shorter and longer, longer, and of any shorter length. */
static void try_line(const struct values *v)
{
    size_t length = second_printed(v, BYTES).bytes;
    for (int flush = AT_END; flush <= AT_FRONT; flush++) {
        compare(v, length, flush);
        compare(v, length - 1, flush);
        compare(v, length + 1, flush);
        compare(v, length + 2 + below(100), flush);
        compare(v, below(length), flush);
    }
}

/* Every slice up to a few bytes longer than the line. */
static void try_every_slice(const struct values *v)
{
    size_t length = second_printed(v, BYTES).bytes;
    for (size_t lent = 0; lent < length + 4; lent++)
        compare(v, lent, AT_END);
}

/* ---------- numbers ---------- */

/* Where a digit more begins, and a few beside it; any number of so many bits. */
static uint64_t any_number(void)
{
    uint64_t ten = 1;
    for (size_t k = below(20); k > 0; k--)
        ten *= 10;
    switch (below(6)) {
    case 0: return ten;
    case 1: return ten - 1;
    case 2: return ten * (1 + below(9));
    case 3: return UINT64_MAX - below(3);
    default: return dice_throw(&dice) >> below(64);
    }
}

static void any_values(struct values *v)
{
    static const uint64_t numbers[] = {0, 0, 0, 8, 8, 23, 26, 27, 1, 7, 9, 10, 12, 18, 19, 22, 24, 25, 28, 80, 230, 260, UINT64_MAX};
    static const size_t widths[] = {0, 1, 2, 9, 10, 63, 64, 99, 100, 65534, 65535, 65536, SIZE_MAX};
    v->net = any_number(), v->place = any_number(), v->second = any_number(), v->units = any_number();
    v->expansions = any_number(), v->tests = any_number();
    v->number = numbers[below(sizeof numbers / sizeof *numbers)];
    v->width = below(2) ? below(64) : widths[below(sizeof widths / sizeof *widths)];
    v->count = below(20) ? below(12) : below(MOST + 1);
    for (size_t i = 0; i < v->count; i++)
        v->path[i] = below(2) ? (wexxolin_vertex)below(MOST) : (wexxolin_vertex)dice_throw(&dice);
}

/* As many bytes as the header says suffice: every number and every coordinate as long as can be. */
static void longest(struct values *v)
{
    *v = (struct values){.net = UINT64_MAX, .units = UINT64_MAX, .expansions = UINT64_MAX, .tests = UINT64_MAX, .width = 63};
    v->count = MOST;
    for (size_t i = 0; i < MOST; i++)
        v->path[i] = 64 * 63 + 63;
    size_t length = second_printed(v, BYTES).bytes;
    snprintf(request, sizeof request, "the longest line has %zu bytes, WEXXOLIN_LONGEST_LINE is %d", length, WEXXOLIN_LONGEST_LINE);
    if (length != WEXXOLIN_LONGEST_LINE)
        differ("not the same");
    try_line(v);
}

/* ---------- whole jobs ---------- */

/* The lines of a job, each by the line call from what the other calls hand back. */
static void add_line(struct second_text *text, const struct values *v)
{
    uint8_t out[WEXXOLIN_LONGEST_LINE];
    struct wexxolin_line line = wexxolin_line(v->net, v->number, v->place, v->second, v->units, v->expansions, v->tests, v->width,
                                              v->path, v->count, out, sizeof out);
    calls++;
    if (line.number != 0)
        differ("a route's line does not fit");
    for (size_t i = 0; i < line.bytes; i++)
        second_print(text, "%c", out[i]);
}

static void job_lines(struct second_text *text, const struct job *job)
{
    static uint8_t cells[63 * 63], marks[MOST];
    static uint64_t g[MOST];
    static wexxolin_vertex parents[MOST], legs[MOST];
    static struct values v;
    v = (struct values){0};
    struct wexxolin_board board = wexxolin_board(job->bytes, job->length, cells, sizeof cells);
    v.number = board.number, v.place = board.place, v.second = board.second, v.width = board.width;
    if (board.number != 0)
        add_line(text, &v);
    for (size_t i = 0; i < board.nets; i++) {
        struct wexxolin_net net = wexxolin_net(job->bytes, job->length, i);
        struct wexxolin_route route = wexxolin_route(cells, board.width * board.height, board.width, board.height, net.sx, net.sy,
                                                     net.gx, net.gy, g, MOST, parents, MOST, marks, MOST, legs, MOST, v.path,
                                                     MOST);
        v.net = net.net, v.number = route.number, v.units = route.units, v.count = route.vertices;
        v.expansions = route.expansions, v.tests = route.tests;
        add_line(text, &v);
    }
}

static void try_job(size_t k)
{
    static struct job job;
    job_random(&dice, &job, 8, 8, k % 4 ? 20 : 63);
    if (k % 3 == 0)
        job_damage(&dice, &job);
    snprintf(request, sizeof request, "the lines of job %zu, of %zu bytes", k, job.length);
    struct second_text theirs = {0}, other = {0};
    job_lines(&theirs, &job);
    second_lines(job.bytes, job.length, &other);
    if (theirs.length != other.length || (other.length && memcmp(theirs.bytes, other.bytes, other.length) != 0))
        differ("the lines differ");
    free(theirs.bytes);
    free(other.bytes);
}

/* ---------- all ---------- */

int main(int argc, char **argv)
{
    static struct values v;
    struct scale scale = scale_of(argc > 1 ? argv[1] : "1");
    dice = dice_of(argc > 2 ? strtoull(argv[2], NULL, 0) : 1);
    room_open(&path_room, "path", MOST * sizeof(wexxolin_vertex), READ_ONLY);
    room_open(&out_room, "the line's slice", BYTES, WRITABLE);
    rooms_watch(tell_fault);
    longest(&v);
    for (size_t k = 0; k < scaled(scale, 10000); k++) {
        any_values(&v);
        try_line(&v);
        if (k % 50 == 0 && v.count < 12)
            try_every_slice(&v);
    }
    for (size_t k = 0; k < scaled(scale, 200); k++)
        try_job(k);
    printf("%-34s %10llu calls compared\n", "lines", (unsigned long long)calls);
    return 0;
}
