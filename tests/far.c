/* Lends slices far longer than needed, up to 2^33 entries and more, gives numbers far beyond any board, and compares the library
   with the second router. A length or number that is cut to fewer bits gives another answer, or writes where nobody may.

       far [SCALE [SEED]]

   All of a far slice can be read; only its first 64 KiB can be written, and they are compared byte by byte. The first difference
   ends the run with 1. */
#include "boards.h"
#include "rooms.h"
#include "second/check.h"
#include "second/packed.h"
#include "second/printer.h"
#include "second/routes.h"
#include "second/second.h"

#include <stdio.h>
#include <stdlib.h>
#include <string.h>

enum { FIRST = 65536, MOST_CELLS = 63 * 63 };

/* What is added to a length or a number. */
static const size_t far_lengths[] = {0, 0, 256, 65536, (size_t)1 << 32, (size_t)3 << 31, (size_t)1 << 33};
static const size_t far_numbers[] = {
    0, 0, 64, 256, 65536, (size_t)1 << 31, (size_t)1 << 32, (size_t)1 << 61, (size_t)1 << 63, SIZE_MAX - 63, SIZE_MAX};
enum { LENGTHS = sizeof far_lengths / sizeof *far_lengths, NUMBERS = sizeof far_numbers / sizeof *far_numbers };

static struct dice dice;
static uint64_t calls;
static char request[512];

static size_t below(size_t count) { return dice_below(&dice, count); }

static void differ(const char *what)
{
    fprintf(stderr, "DIFFERENCE in group 'far slices and numbers'\n%s: %s\n", request, what);
    exit(1);
}

static void tell_fault(const char *where)
{
    char what[200];
    snprintf(what, sizeof what, "outside what may be written: %s", where);
    differ(what);
}

/* Answers have no gaps between their fields, so that all of them are compared, doubles by their bits. */
static void compare(const void *theirs, const void *ours, size_t bytes)
{
    calls++;
    if (memcmp(theirs, ours, bytes) != 0)
        differ("the answers differ");
}

/* ---------- slices ---------- */

/* A slice in the library's room and in the second router's memory; only the second's first bytes are there. */
struct slice {
    struct room room;
    void *ours;
};

static struct slice cells, g, parents, marks, legs, path, job, board, packed, routes, units, leg_counts;

static void open_slice(struct slice *slice, const char *name, size_t size)
{
    room_open_far(&slice->room, name, (((size_t)1 << 33) + FIRST) * size, FIRST);
    slice->ours = malloc(FIRST);
    if (!slice->ours)
        exit(2);
}

/* The slice as the library is lent it, filled with the same bytes as the second's. */
static void *lend(struct slice *slice, size_t length, size_t size)
{
    void *lent = room_lend(&slice->room, length * size, AT_FRONT);
    dice_fill(&dice, slice->ours, FIRST);
    memcpy(lent, slice->ours, FIRST);
    return lent;
}

static void compare_slice(const struct slice *slice)
{
    if (memcmp(slice->room.lent, slice->ours, FIRST) != 0)
        differ(slice->room.name);
}

/* ---------- sight and route ---------- */

struct route_case {
    size_t cells_len, width, height, sx, sy, gx, gy, g_len, parents_len, marks_len, legs_len, path_len;
};

static void tell_case(const char *call, const struct route_case *c)
{
    snprintf(request, sizeof request,
             "%s: %zu cells, width %zu, height %zu, from (%zu,%zu) to (%zu,%zu), g %zu, parents %zu, marks %zu, legs %zu, path %zu", call,
             c->cells_len, c->width, c->height, c->sx, c->sy, c->gx, c->gy, c->g_len, c->parents_len, c->marks_len, c->legs_len,
             c->path_len);
}

static void compare_sight(const struct route_case *c)
{
    tell_case("sight", c);
    const uint8_t *lent = room_lend(&cells.room, c->cells_len, AT_FRONT);
    struct wexxolin_sight a = wexxolin_sight(lent, c->cells_len, c->width, c->height, c->sx, c->sy, c->gx, c->gy);
    struct wexxolin_sight b = second_sight(lent, c->cells_len, c->width, c->height, c->sx, c->sy, c->gx, c->gy);
    compare(&a, &b, sizeof a);
}

static void compare_route(const struct route_case *c)
{
    tell_case("route", c);
    const uint8_t *board_cells = room_lend(&cells.room, c->cells_len, AT_FRONT);
    uint64_t *lent_g = lend(&g, c->g_len, sizeof *lent_g);
    wexxolin_vertex *lent_parents = lend(&parents, c->parents_len, sizeof *lent_parents);
    uint8_t *lent_marks = lend(&marks, c->marks_len, sizeof *lent_marks);
    wexxolin_vertex *lent_legs = lend(&legs, c->legs_len, sizeof *lent_legs);
    wexxolin_vertex *lent_path = lend(&path, c->path_len, sizeof *lent_path);
    struct wexxolin_route a =
        wexxolin_route(board_cells, c->cells_len, c->width, c->height, c->sx, c->sy, c->gx, c->gy, lent_g, c->g_len,
                       lent_parents, c->parents_len, lent_marks, c->marks_len, lent_legs, c->legs_len, lent_path, c->path_len);
    struct wexxolin_route b =
        second_route(board_cells, c->cells_len, c->width, c->height, c->sx, c->sy, c->gx, c->gy, g.ours, c->g_len,
                     parents.ours, c->parents_len, marks.ours, c->marks_len, legs.ours, c->legs_len, path.ours, c->path_len);
    compare(&a, &b, sizeof a);
    compare_slice(&g);
    compare_slice(&parents);
    compare_slice(&marks);
    compare_slice(&legs);
    compare_slice(&path);
}

/* A board of this size, and ends that are a few cells apart. */
static struct route_case good_case(size_t width, size_t height)
{
    size_t vertices = (width + 1) * (height + 1);
    struct route_case c = {width * height, width, height, 0, 0, 0, 0, vertices, vertices, vertices, vertices, vertices};
    board_scattered(&dice, cells.room.ours, width, height, 20);
    c.sx = below(width + 1), c.sy = below(height + 1);
    c.gx = width < 8 ? below(width + 1) : c.sx - (c.sx > 2 ? 2 : 0);
    c.gy = height < 8 ? below(height + 1) : c.sy - (c.sy > 2 ? 2 : 0);
    return c;
}

/* What is needed, or one less, or none, and far more. */
static void stretch(size_t *length)
{
    size_t kind = below(6);
    *length = (kind == 0 ? 0 : kind == 1 ? *length - 1 : *length) + far_lengths[below(LENGTHS)];
}

static void far_slices(struct route_case c)
{
    stretch(&c.g_len);
    stretch(&c.parents_len);
    stretch(&c.marks_len);
    stretch(&c.legs_len);
    stretch(&c.path_len);
    compare_route(&c);
    c.cells_len += far_lengths[below(LENGTHS)];
    compare_sight(&c);
    compare_route(&c);
}

/* One number far beyond, or two. */
static void far_ends(struct route_case c)
{
    size_t *numbers[] = {&c.width, &c.height, &c.sx, &c.sy, &c.gx, &c.gy};
    for (size_t k = 0; k < 2; k++) {
        size_t *number = numbers[below(6)];
        *number += far_numbers[below(NUMBERS)];
    }
    compare_sight(&c);
    compare_route(&c);
    struct wexxolin_length la = wexxolin_length_between(c.sx, c.sy, c.gx, c.gy), lb = second_length_between(c.sx, c.sy, c.gx, c.gy);
    compare(&la, &lb, sizeof la);
    struct wexxolin_direction da = wexxolin_direction_between(c.sx, c.sy, c.gx, c.gy);
    struct wexxolin_direction db = second_direction_between(c.sx, c.sy, c.gx, c.gy);
    compare(&da, &db, sizeof da);
}

/* ---------- jobs ---------- */

static void compare_board(size_t job_len, size_t board_len)
{
    snprintf(request, sizeof request, "board read from a job of %zu bytes into a slice of %zu", job_len, board_len);
    const uint8_t *bytes = room_lend(&job.room, job_len, AT_FRONT);
    uint8_t *lent = lend(&board, board_len, 1);
    struct wexxolin_board a = wexxolin_board(bytes, job_len, lent, board_len);
    struct wexxolin_board b = second_board(bytes, job_len, board.ours, board_len);
    compare(&a, &b, sizeof a);
    compare_slice(&board);
}

static void compare_net(size_t job_len, size_t index)
{
    snprintf(request, sizeof request, "net read from a job of %zu bytes at index %zu", job_len, index);
    const uint8_t *bytes = room_lend(&job.room, job_len, AT_FRONT);
    struct wexxolin_net a = wexxolin_net(bytes, job_len, index);
    struct wexxolin_net b = second_net(bytes, job_len, index);
    compare(&a, &b, sizeof a);
}

static void far_job(void)
{
    static struct job thrown;
    job_random(&dice, &thrown, 6, 6, 63);
    memcpy(job.room.ours, thrown.bytes, thrown.length);
    size_t board_len = below(2) ? MOST_CELLS : below(MOST_CELLS);
    compare_board(thrown.length, board_len + far_lengths[below(LENGTHS)]);
    compare_board(thrown.length + far_lengths[below(LENGTHS)], MOST_CELLS);
    compare_net(thrown.length + far_lengths[below(LENGTHS)], 0);
    size_t index = below(6);
    compare_net(thrown.length, index + far_numbers[below(NUMBERS)]);
}

/* ---------- packed boards ---------- */

struct packed_case {
    size_t width, height, cells_len, packed_len, lent;
};

static void tell_packed(const char *call, const struct packed_case *c)
{
    snprintf(request, sizeof request, "%s: width %zu, height %zu, %zu cells, %zu packed bytes, a slice of %zu lent", call, c->width,
             c->height, c->cells_len, c->packed_len, c->lent);
}

static void compare_unpack(const struct packed_case *c)
{
    tell_packed("unpack", c);
    const uint8_t *bytes = room_lend(&packed.room, c->packed_len, AT_FRONT);
    uint8_t *lent = lend(&board, c->lent, 1);
    struct wexxolin_pack a = wexxolin_unpack(bytes, c->packed_len, c->width, c->height, lent, c->lent);
    struct wexxolin_pack b = second_unpack(bytes, c->packed_len, c->width, c->height, board.ours, c->lent);
    compare(&a, &b, sizeof a);
    compare_slice(&board);
    struct wexxolin_count_packed ca = wexxolin_count_packed(bytes, c->packed_len, c->width, c->height);
    struct wexxolin_count_packed cb = second_count_packed(bytes, c->packed_len, c->width, c->height);
    compare(&ca, &cb, sizeof ca);
}

static void compare_pack(const struct packed_case *c)
{
    tell_packed("pack", c);
    const uint8_t *bytes = room_lend(&cells.room, c->cells_len, AT_FRONT);
    uint8_t *lent = lend(&board, c->lent, 1);
    struct wexxolin_pack a = wexxolin_pack(bytes, c->cells_len, c->width, c->height, lent, c->lent);
    struct wexxolin_pack b = second_pack(bytes, c->cells_len, c->width, c->height, board.ours, c->lent);
    compare(&a, &b, sizeof a);
    compare_slice(&board);
}

/* The slices far longer than needed, then the numbers far beyond. */
static void far_packed(size_t width, size_t height)
{
    struct packed_case c = {width, height, width * height, (width + 7) / 8 * height, width * height};
    board_scattered(&dice, cells.room.ours, width, height, 20);
    second_pack(cells.room.ours, c.cells_len, width, height, packed.room.ours, FIRST);
    stretch(&c.lent);
    compare_unpack(&c);
    compare_pack(&c);
    c.cells_len += far_lengths[below(LENGTHS)];
    c.packed_len += far_lengths[below(LENGTHS)];
    compare_unpack(&c);
    compare_pack(&c);
    c = (struct packed_case){width, height, width * height, (width + 7) / 8 * height, width * height};
    *(below(2) ? &c.width : &c.height) += far_numbers[below(NUMBERS)];
    compare_unpack(&c);
    compare_pack(&c);
}

/* ---------- lines ---------- */

static void compare_line(size_t width, size_t vertices, size_t more, size_t lent)
{
    snprintf(request, sizeof request, "line: width %zu, %zu vertices and %zu more, %zu bytes lent", width, vertices, more, lent);
    const wexxolin_vertex *numbers = lend(&path, vertices + more, sizeof *numbers);
    uint8_t *out = lend(&board, lent, 1);
    struct wexxolin_line a = wexxolin_line(1, 0, 0, 0, 2, 3, 4, width, numbers, vertices + more, out, lent);
    struct wexxolin_line b = {21, 0, 0, 0};
    if (more == 0)
        b = second_line(1, 0, 0, 0, 2, 3, 4, width, path.ours, vertices, board.ours, lent);
    compare(&a, &b, sizeof a);
    compare_slice(&board);
}

/* A slice far longer than the line; a path of so many more vertices that its line has no room; a width far beyond. */
static void far_line(size_t width)
{
    size_t lent = 500 + below(500);
    compare_line(width, below(100), 0, lent + far_lengths[below(LENGTHS)]);
    compare_line(width, below(100), far_lengths[below(LENGTHS)], lent);
    compare_line(width + far_numbers[below(NUMBERS)], below(100), 0, lent);
}

/* ---------- route files ---------- */

/* How many entries each slice has: file in cells, nets in marks, counts in g, xs in board, ys in packed. */
struct routes_case {
    size_t file, nets, counts, xs, ys;
};

static void tell_routes(const char *call, const struct routes_case *c)
{
    snprintf(request, sizeof request, "%s: a file of %zu bytes, %zu nets, %zu counts, %zu x, %zu y", call, c->file, c->nets, c->counts,
             c->xs, c->ys);
}

static void compare_read(const struct routes_case *c)
{
    tell_routes("routes read", c);
    const uint8_t *file = room_lend(&cells.room, c->file, AT_FRONT);
    uint8_t *nets = lend(&marks, c->nets, 1), *xs = lend(&board, c->xs, 1), *ys = lend(&packed, c->ys, 1);
    size_t *counts = lend(&g, c->counts, sizeof *counts);
    struct wexxolin_read_routes a = wexxolin_read_routes(file, c->file, nets, c->nets, counts, c->counts, xs, c->xs, ys, c->ys);
    struct wexxolin_read_routes b =
        second_read_routes(file, c->file, marks.ours, c->nets, g.ours, c->counts, board.ours, c->xs, packed.ours, c->ys);
    compare(&a, &b, sizeof a);
    compare_slice(&marks);
    compare_slice(&g);
    compare_slice(&board);
    compare_slice(&packed);
}

static void compare_write(const struct routes_case *c)
{
    tell_routes("routes written", c);
    const uint8_t *nets = room_lend(&marks.room, c->nets, AT_FRONT), *xs = room_lend(&board.room, c->xs, AT_FRONT);
    const uint8_t *ys = room_lend(&packed.room, c->ys, AT_FRONT);
    const size_t *counts = room_lend(&g.room, c->counts * sizeof *counts, AT_FRONT);
    uint8_t *file = lend(&cells, c->file, 1);
    struct wexxolin_write_routes a = wexxolin_write_routes(nets, c->nets, counts, c->counts, xs, c->xs, ys, c->ys, file, c->file);
    struct wexxolin_write_routes b =
        second_write_routes(nets, c->nets, counts, c->counts, xs, c->xs, ys, c->ys, cells.ours, c->file);
    compare(&a, &b, sizeof a);
    compare_slice(&cells);
}

/* A few routes in the slices; the first net has a path. What lies beyond has small counts, so that a net more is judged soon. */
static struct routes_case throw_routes(void)
{
    struct routes_case c = {0, 1 + below(5), 0, 0, 0};
    size_t *counts = (size_t *)g.room.ours;
    c.counts = c.nets;
    for (size_t k = 0; k < 300; k++)
        counts[k] = k == 0 ? 1 + below(9) : below(4);
    for (size_t k = 0; k < c.nets; k++) {
        marks.room.ours[k] = (uint8_t)(10 * k + 1 + below(9));
        c.file += 8 * (counts[k] == 0 ? 1 : counts[k]);
        c.xs += counts[k];
    }
    c.ys = c.xs;
    dice_fill(&dice, board.room.ours, c.xs);
    dice_fill(&dice, packed.room.ours, c.ys);
    return c;
}

/* The slices far longer than needed, in writing and in reading, then the file. */
static void far_routes(void)
{
    struct routes_case c = throw_routes(), longer = c;
    size_t *lengths[] = {&longer.file, &longer.counts, &longer.xs, &longer.ys};
    for (size_t k = 0; k < 4; k++)
        stretch(lengths[k]);
    compare_write(&longer);
    stretch(&longer.nets);
    compare_write(&longer);
    longer = c;
    second_write_routes(marks.room.ours, c.nets, (size_t *)g.room.ours, c.counts, board.room.ours, c.xs, packed.room.ours, c.ys,
                        cells.room.ours, FIRST);
    stretch(&longer.nets);
    for (size_t k = 1; k < 4; k++)
        stretch(lengths[k]);
    compare_read(&longer);
    longer.file += far_lengths[below(LENGTHS)];
    compare_read(&longer);
}

static void compare_points(size_t width, size_t vertices, size_t xs_len, size_t ys_len)
{
    snprintf(request, sizeof request, "points: width %zu, %zu vertices, slices of %zu and %zu lent", width, vertices, xs_len, ys_len);
    const wexxolin_vertex *numbers = room_lend(&path.room, vertices * sizeof *numbers, AT_FRONT);
    uint8_t *xs = lend(&board, xs_len, 1), *ys = lend(&packed, ys_len, 1);
    struct wexxolin_path_points a = wexxolin_path_points(numbers, vertices, width, xs, xs_len, ys, ys_len);
    struct wexxolin_path_points b = second_path_points(numbers, vertices, width, board.ours, xs_len, packed.ours, ys_len);
    compare(&a, &b, sizeof a);
    compare_slice(&board);
    compare_slice(&packed);
}

/* Slices far longer than the path, a width far beyond, and a far longer path, which goes on with a vertex that is off every board. */
static void far_points(size_t width)
{
    wexxolin_vertex *numbers = (wexxolin_vertex *)path.room.ours;
    size_t vertices = 1 + below(100), xs_len = vertices, ys_len = vertices;
    for (size_t k = 0; k < vertices; k++)
        numbers[k] = (wexxolin_vertex)below(64 * (width + 1));
    stretch(&xs_len);
    stretch(&ys_len);
    compare_points(width, vertices, xs_len, ys_len);
    compare_points(width + far_numbers[below(NUMBERS)], vertices, xs_len, ys_len);
    numbers[vertices] = (wexxolin_vertex)(64 * (width + 1));
    compare_points(width, vertices + far_lengths[below(LENGTHS)], xs_len, ys_len);
}

/* ---------- the check of routes ---------- */

struct check_case {
    size_t job, routes, board, g, parents, marks, legs, units, leg_counts;
};

static void compare_check(const struct check_case *c)
{
    snprintf(request, sizeof request,
             "check: job %zu, routes %zu, board %zu, g %zu, parents %zu, marks %zu, legs %zu, units %zu, leg_counts %zu", c->job,
             c->routes, c->board, c->g, c->parents, c->marks, c->legs, c->units, c->leg_counts);
    const uint8_t *bytes = room_lend(&job.room, c->job, AT_FRONT), *records = room_lend(&routes.room, c->routes, AT_FRONT);
    uint8_t *lent_board = lend(&board, c->board, 1), *lent_marks = lend(&marks, c->marks, 1);
    uint64_t *lent_g = lend(&g, c->g, sizeof *lent_g), *lent_units = lend(&units, c->units, sizeof *lent_units);
    wexxolin_vertex *lent_parents = lend(&parents, c->parents, sizeof *lent_parents);
    wexxolin_vertex *lent_legs = lend(&legs, c->legs, sizeof *lent_legs);
    uint32_t *lent_counts = lend(&leg_counts, c->leg_counts, sizeof *lent_counts);
    struct wexxolin_check a = wexxolin_check(bytes, c->job, records, c->routes, lent_board, c->board, lent_g, c->g, lent_parents,
                                             c->parents, lent_marks, c->marks, lent_legs, c->legs, lent_units, c->units, lent_counts,
                                             c->leg_counts);
    struct wexxolin_check b = second_check(bytes, c->job, records, c->routes, board.ours, c->board, g.ours, c->g, parents.ours, c->parents,
                                           marks.ours, c->marks, legs.ours, c->legs, units.ours, c->units, leg_counts.ours, c->leg_counts);
    compare(&a, &b, sizeof a);
    const struct slice *written[] = {&board, &g, &parents, &marks, &legs, &units, &leg_counts};
    for (size_t k = 0; k < sizeof written / sizeof *written; k++)
        compare_slice(written[k]);
}

/* A job of a few nets for which no path is claimed, with slices far longer than needed; then job or file far longer. */
static void far_check(void)
{
    static struct job thrown;
    job_random(&dice, &thrown, 3, 3, 6);
    memcpy(job.room.ours, thrown.bytes, thrown.length);
    struct wexxolin_board read = second_board(thrown.bytes, thrown.length, board.ours, FIRST);
    for (size_t k = 0; k < read.nets; k++) {
        uint8_t record[8] = {5, (uint8_t)second_net(thrown.bytes, thrown.length, k).net, 0, 0, 0, 0, 0, 0};
        memcpy(routes.room.ours + 8 * k, record, 8);
    }
    size_t vertices = (read.width + 1) * (read.height + 1);
    struct check_case c = {thrown.length, 8 * read.nets, read.width * read.height, vertices, vertices, vertices, vertices,
                           read.nets, read.nets};
    size_t *lengths[] = {&c.board, &c.g, &c.parents, &c.marks, &c.legs, &c.units, &c.leg_counts};
    for (size_t k = 0; k < sizeof lengths / sizeof *lengths; k++)
        if (*lengths[k] > 0 && below(3) > 0)
            stretch(lengths[k]);
    compare_check(&c);
    *(below(2) ? &c.job : &c.routes) += far_lengths[below(LENGTHS)];
    compare_check(&c);
    memset(routes.room.ours, 0, 8 * read.nets);
}

/* ---------- all ---------- */

int main(int argc, char **argv)
{
    static const size_t sizes[][2] = {{1, 1}, {2, 3}, {7, 5}, {1, 63}, {63, 1}, {16, 16}, {63, 63}};
    struct scale scale = scale_of(argc > 1 ? argv[1] : "1");
    dice = dice_of(argc > 2 ? strtoull(argv[2], NULL, 0) : 1);
    open_slice(&cells, "cells", 1);
    open_slice(&g, "g", sizeof(uint64_t));
    open_slice(&parents, "parents", sizeof(wexxolin_vertex));
    open_slice(&marks, "marks", 1);
    open_slice(&legs, "legs", sizeof(wexxolin_vertex));
    open_slice(&path, "path", sizeof(wexxolin_vertex));
    open_slice(&job, "job", 1);
    open_slice(&board, "board", 1);
    open_slice(&packed, "packed", 1);
    open_slice(&routes, "routes", 1);
    open_slice(&units, "units", sizeof(uint64_t));
    open_slice(&leg_counts, "leg_counts", sizeof(uint32_t));
    rooms_watch(tell_fault);
    for (size_t k = 0; k < scaled(scale, 2100); k++) {
        const size_t *size = sizes[k % (sizeof sizes / sizeof *sizes)];
        far_slices(good_case(size[0], size[1]));
        far_ends(good_case(size[0], size[1]));
        far_job();
        far_packed(size[0], size[1]);
        far_line(size[0]);
        far_routes();
        far_points(size[0]);
        far_check();
    }
    printf("%-34s %10llu calls compared\n", "far slices and numbers", (unsigned long long)calls);
    return 0;
}
