/* Compares the library behind include/wexxolin.h with the second router, call by call and entry by entry.

       agree [SCALE [SEED [FILE [PART]]]]

   SCALE 1 is the everyday run; a larger one makes about so many times the comparisons. The same SEED gives the same cases.
   The first difference ends the run with 1; it is described on standard error and in FILE (agree-difference.hex if not
   given), as comments followed by a job that shows it where a job can. PART is routes or others; both if not given.
   Each request is made twice: every slice that the library is lent ends at a page that nobody may touch, then it begins behind
   one, and what may only be read cannot be written. A step outside is a difference too. */
#include "boards.h"
#include "rooms.h"
#include "second/second.h"

#include <stdarg.h>
#include <stdio.h>
#include <stdlib.h>
#include <string.h>

enum {
    PAD = 8,             /* entries watched before and behind each lent slice */
    MOST_CELLS = 63 * 63,
    MOST_VERTICES = 64 * 64,
    SPARE = 64,          /* how much longer than needed a lent slice may be */
    ROOM = PAD + MOST_VERTICES + SPARE + PAD
};

static struct dice dice;
static struct scale scale = {1, 1};
static const char *difference_file = "agree-difference.hex";

/* No expression throws twice, so that the cases do not depend on the order in which a compiler takes its parts. */
static size_t below(size_t count) { return dice_below(&dice, count); }
static int chance(size_t percent) { return below(100) < percent; }
static uint8_t any_byte(void) { return (uint8_t)below(256); }

/* ---------- counting ---------- */

static const char *group_name;
static uint64_t group_calls, group_entries, all_calls, all_entries;

static void begin_group(const char *name)
{
    group_name = name;
    group_calls = group_entries = 0;
}

static void end_group(void)
{
    printf("%-34s %10llu calls compared, %12llu numbers and entries\n", group_name, (unsigned long long)group_calls,
           (unsigned long long)group_entries);
    fflush(stdout);
    all_calls += group_calls;
    all_entries += group_entries;
}

static void count(uint64_t entries)
{
    group_calls++;
    group_entries += entries;
}

/* ---------- telling of a difference ---------- */

static FILE *telling;

static void tell(const char *format, ...)
{
    if (!telling) {
        telling = fopen(difference_file, "w");
        fprintf(stderr, "DIFFERENCE in group '%s'\n", group_name);
        if (telling)
            fprintf(telling, "# Difference in group '%s'.\n", group_name);
    }
    va_list arguments;
    va_start(arguments, format);
    vfprintf(stderr, format, arguments);
    va_end(arguments);
    fputc('\n', stderr);
    if (!telling)
        return;
    fputs("# ", telling);
    va_start(arguments, format);
    vfprintf(telling, format, arguments);
    va_end(arguments);
    fputc('\n', telling);
}

static void tell_record(unsigned a, unsigned b, unsigned c, unsigned d, unsigned e, unsigned f)
{
    if (telling)
        fprintf(telling, "%02x%02x%02x%02x%02x%02x0000\n", a & 255, b & 255, c & 255, d & 255, e & 255, f & 255);
}

static void end_of_telling(void)
{
    if (telling) {
        fclose(telling);
        fprintf(stderr, "written to %s\n", difference_file);
    }
    exit(1);
}

static int is_board(const uint8_t *cells, size_t cells_len, size_t width, size_t height)
{
    if (width < 1 || width > 63 || height < 1 || height > 63 || cells_len != width * height)
        return 0;
    for (size_t i = 0; i < cells_len; i++)
        if (cells[i] > 1)
            return 0;
    return 1;
}

/* Writes the board as keepouts, each as large as it can be, and one net. */
static void tell_job_of_board(const uint8_t *cells, size_t width, size_t height, size_t sx, size_t sy, size_t gx, size_t gy)
{
    static uint8_t left[MOST_CELLS];
    memcpy(left, cells, width * height);
    tell_record(1, 0, (unsigned)width, (unsigned)height, 0, 0);
    for (size_t y = 0; y < height; y++)
        for (size_t x = 0; x < width; x++) {
            size_t x1 = x, y1 = y;
            while (x1 < width && left[y * width + x1])
                x1++;
            while (x1 > x && y1 < height && memchr(left + y1 * width + x, 0, x1 - x) == NULL)
                memset(left + y1++ * width + x, 0, x1 - x);
            if (x1 > x)
                tell_record(2, 0, (unsigned)x, (unsigned)y, (unsigned)x1, (unsigned)y1);
        }
    if (sx <= width && gx <= width && sy <= height && gy <= height)
        tell_record(3, 1, (unsigned)sx, (unsigned)sy, (unsigned)gx, (unsigned)gy);
}

static void tell_board(const uint8_t *cells, size_t cells_len, size_t width, size_t height)
{
    tell("width %zu height %zu, %zu cells given", width, height, cells_len);
    for (size_t y = 0; y < height && y < 64 && width < 64 && (y + 1) * width <= cells_len; y++) {
        char row[65] = {0};
        for (size_t x = 0; x < width; x++)
            row[x] = cells[y * width + x] == 0 ? '.' : cells[y * width + x] == 1 ? '#' : '?';
        tell("  %s", row);
    }
    for (size_t i = 0; i < cells_len; i++)
        if (cells[i] > 1)
            tell("cell byte %zu is %u", i, cells[i]);
}

static void tell_job(const uint8_t *job, size_t length)
{
    tell("a job of %zu bytes", length);
    for (size_t i = 0; telling && i < length; i++)
        fprintf(telling, "%02x%s", job[i], i % 8 == 7 || i + 1 == length ? "\n" : "");
}

/* ---------- comparing numbers and doubles ---------- */

static int same_bits(double a, double b) { return memcmp(&a, &b, sizeof a) == 0; }

/* Answers have no gaps between their fields, so that all of them are compared, doubles by their bits. */
#define SAME_ANSWER(a, b) (memcmp(&(a), &(b), sizeof(a)) == 0)

static void tell_number(const char *what, uint64_t theirs, uint64_t ours)
{
    tell("%-10s library %llu, second router %llu%s", what, (unsigned long long)theirs, (unsigned long long)ours,
         theirs == ours ? "" : "   <--");
}

static void tell_double(const char *what, double theirs, double ours)
{
    tell("%-10s library %a, second router %a%s", what, theirs, ours, same_bits(theirs, ours) ? "" : "   <--");
}

/* ---------- lending ---------- */

static struct room cells_room, g_room, parents_room, marks_room, legs_room, path_room, job_room, board_room;

/* The request that the library has in hand, and what tells it and its job. */
static const void *request;
static void (*tell_request)(const void *request);

static void tell_fault(const char *where)
{
    tell("outside what was lent: %s", where);
    tell_request(request);
    end_of_telling();
}

static void open_rooms(void)
{
    room_open(&cells_room, "cells", MOST_CELLS + SPARE, READ_ONLY);
    room_open(&g_room, "g", ROOM * sizeof(uint64_t), WRITABLE);
    room_open(&parents_room, "parents", ROOM * sizeof(wexxolin_vertex), WRITABLE);
    room_open(&marks_room, "marks", ROOM, WRITABLE);
    room_open(&legs_room, "legs", ROOM * sizeof(wexxolin_vertex), WRITABLE);
    room_open(&path_room, "path", ROOM * sizeof(wexxolin_vertex), WRITABLE);
    room_open(&job_room, "job", JOB_ROOM, READ_ONLY);
    room_open(&board_room, "board", ROOM, WRITABLE);
    rooms_watch(tell_fault);
}

/* Bytes that the library may only read. */
static const uint8_t *lend_bytes(struct room *room, const uint8_t *bytes, size_t length, enum flush flush)
{
    const uint8_t *slice = room_lend_any(room, length, flush, &dice);
    memcpy(room->ours + room->at, bytes, length);
    return slice;
}

/* Entries to be written. Those watched on the flush side have no place in the room: touching them is a fault. */
static void *lend_entries(struct room *room, const void *old, size_t size, size_t length, enum flush flush)
{
    void *slice = room_lend_any(room, length * size, flush, &dice);
    size_t before = flush == AT_END ? PAD * size : 0;
    memcpy(room->ours + room->at - before, (const uint8_t *)old + PAD * size - before, (PAD + length) * size);
    return slice;
}

/* The entries as the call left them, and those watched. */
static void fetch_entries(const struct room *room, void *entries, const void *old, size_t size, size_t length)
{
    size_t before = room->flush == AT_END ? PAD * size : 0;
    memcpy(entries, old, (PAD + length + PAD) * size);
    memcpy((uint8_t *)entries + PAD * size - before, room->ours + room->at - before, (PAD + length) * size);
}

/* ---------- sight ---------- */

struct leg_case {
    const uint8_t *cells;
    size_t cells_len, width, height, ax, ay, bx, by;
};

static void tell_leg(const void *of)
{
    const struct leg_case *c = of;
    tell("sight from (%zu,%zu) to (%zu,%zu)", c->ax, c->ay, c->bx, c->by);
    tell_board(c->cells, c->cells_len, c->width, c->height);
    if (is_board(c->cells, c->cells_len, c->width, c->height))
        tell_job_of_board(c->cells, c->width, c->height, c->ax, c->ay, c->bx, c->by);
}

static void check_sight(const struct leg_case *c, struct wexxolin_sight b, enum flush flush)
{
    request = c, tell_request = tell_leg;
    const uint8_t *cells = lend_bytes(&cells_room, c->cells, c->cells_len, flush);
    struct wexxolin_sight a = wexxolin_sight(cells, c->cells_len, c->width, c->height, c->ax, c->ay, c->bx, c->by);
    count(9);
    if (SAME_ANSWER(a, b))
        return;
    tell_number("number", a.number, b.number);
    tell_number("place", a.place, b.place);
    tell_number("second", a.second, b.second);
    tell_number("sight", a.sight, b.sight);
    tell_number("kind", a.kind, b.kind);
    tell_number("x", a.x, b.x);
    tell_number("y", a.y, b.y);
    tell_number("x2", a.x2, b.x2);
    tell_number("y2", a.y2, b.y2);
    tell_leg(c);
    end_of_telling();
}

static struct wexxolin_sight compare_sight(const struct leg_case *c)
{
    struct wexxolin_sight b = second_sight(c->cells, c->cells_len, c->width, c->height, c->ax, c->ay, c->bx, c->by);
    check_sight(c, b, AT_END);
    check_sight(c, b, AT_FRONT);
    return b;
}

static void compare_sight_both_ways(struct leg_case c)
{
    uint64_t there = compare_sight(&c).sight;
    struct leg_case back = c;
    back.ax = c.bx, back.ay = c.by, back.bx = c.ax, back.by = c.ay;
    if (compare_sight(&back).sight != there) {
        tell("sight from (%zu,%zu) to (%zu,%zu) is not the same the other way round", c.ax, c.ay, c.bx, c.by);
        tell_board(c.cells, c.cells_len, c.width, c.height);
        end_of_telling();
    }
}

/* ---------- length and direction ---------- */

static void check_length(struct wexxolin_length a, struct wexxolin_length b, const char *call, long long p, long long q,
                         unsigned long long r, unsigned long long s)
{
    count(4);
    if (SAME_ANSWER(a, b))
        return;
    tell("%s (%lld, %lld, %llu, %llu)", call, p, q, r, s);
    tell_number("number", a.number, b.number);
    tell_number("place", a.place, b.place);
    tell_number("second", a.second, b.second);
    tell_number("units", a.units, b.units);
    tell_double("cells", a.cells, b.cells);
    end_of_telling();
}

static void check_direction(struct wexxolin_direction a, struct wexxolin_direction b, const char *call, long long p,
                            long long q, unsigned long long r, unsigned long long s)
{
    count(4);
    if (SAME_ANSWER(a, b))
        return;
    tell("%s (%lld, %lld, %llu, %llu)", call, p, q, r, s);
    tell_number("number", a.number, b.number);
    tell_number("place", a.place, b.place);
    tell_number("second", a.second, b.second);
    tell_double("x", a.x, b.x);
    tell_double("y", a.y, b.y);
    end_of_telling();
}

/* u² is at most (dx² + dy²) × 2^40, and (u + 1)² is above it; neither number of a direction exceeds 1 in size. */
static void check_promises_of_leg(int32_t dx, int32_t dy)
{
    struct wexxolin_length l = wexxolin_length(dx, dy);
    struct wexxolin_direction d = wexxolin_direction(dx, dy);
    if (l.number)
        return;
    unsigned __int128 n = (unsigned __int128)((uint64_t)((int64_t)dx * dx + (int64_t)dy * dy)) << 40, u = l.units;
    int good = u * u <= n && (u + 1) * (u + 1) > n && l.cells * 1048576.0 == (double)l.units;
    good = good && d.x >= -1 && d.x <= 1 && d.y >= -1 && d.y <= 1;
    good = good && (dx != 0 || same_bits(d.x, 0.0)) && (dy != 0 || same_bits(d.y, 0.0));
    good = good && (dx == 0 || dy != 0 || d.x == (dx > 0 ? 1 : -1)) && (dy == 0 || dx != 0 || d.y == (dy > 0 ? 1 : -1));
    group_entries += 6;
    if (good)
        return;
    tell("length and direction of (%d, %d) break the document's bounds: %llu units, %a cells, direction %a %a", dx, dy,
         (unsigned long long)l.units, l.cells, d.x, d.y);
    end_of_telling();
}

static void compare_differences(int32_t dx, int32_t dy)
{
    check_length(wexxolin_length(dx, dy), second_length(dx, dy), "length of differences", dx, dy, 0, 0);
    check_direction(wexxolin_direction(dx, dy), second_direction(dx, dy), "direction of differences", dx, dy, 0, 0);
    check_promises_of_leg(dx, dy);
}

static void compare_between(size_t ax, size_t ay, size_t bx, size_t by)
{
    check_length(wexxolin_length_between(ax, ay, bx, by), second_length_between(ax, ay, bx, by), "length between ax ay bx by",
                 (long long)ax, (long long)ay, bx, by);
    check_direction(wexxolin_direction_between(ax, ay, bx, by), second_direction_between(ax, ay, bx, by),
                    "direction between ax ay bx by", (long long)ax, (long long)ay, bx, by);
}

/* ---------- route ---------- */

struct route_case {
    const uint8_t *cells;
    size_t cells_len, width, height, sx, sy, gx, gy;
    size_t g_len, parents_len, marks_len, legs_len, path_len;
};

struct lent {
    uint64_t g[ROOM];
    wexxolin_vertex parents[ROOM], legs[ROOM], path[ROOM];
    uint8_t marks[ROOM];
};

static struct lent before, theirs, ours;

static void tell_route_request(const void *of)
{
    const struct route_case *c = of;
    tell("route from (%zu,%zu) to (%zu,%zu)", c->sx, c->sy, c->gx, c->gy);
    tell_board(c->cells, c->cells_len, c->width, c->height);
    tell("slices lent: g %zu, parents %zu, marks %zu, legs %zu, path %zu", c->g_len, c->parents_len, c->marks_len, c->legs_len,
         c->path_len);
    if (is_board(c->cells, c->cells_len, c->width, c->height))
        tell_job_of_board(c->cells, c->width, c->height, c->sx, c->sy, c->gx, c->gy);
}

static void tell_route(struct wexxolin_route a, struct wexxolin_route b, const char *why)
{
    tell("a route differs: %s", why);
    tell_number("number", a.number, b.number);
    tell_number("place", a.place, b.place);
    tell_number("second", a.second, b.second);
    tell_double("cells", a.cells, b.cells);
    tell_number("units", a.units, b.units);
    tell_number("vertices", a.vertices, b.vertices);
    tell_number("legs", a.legs, b.legs);
    tell_number("expansions", a.expansions, b.expansions);
    tell_number("tests", a.tests, b.tests);
}

static void end_of_route(const struct route_case *c)
{
    tell_route_request(c);
    end_of_telling();
}

static uint64_t entry(const void *slice, size_t size, size_t i)
{
    uint64_t value = 0;
    const uint8_t *at = (const uint8_t *)slice + i * size;
    if (size == 1)
        value = *at;
    if (size == 2) {
        uint16_t two;
        memcpy(&two, at, 2);
        value = two;
    }
    if (size == 8)
        memcpy(&value, at, 8);
    return value;
}

/* The one slice in both routers' hands, watched entries included. Only the first `written` entries may have changed. */
static void compare_slice(const struct route_case *c, const char *name, const void *a, const void *b, const void *old,
                          size_t size, size_t length, size_t written, struct wexxolin_route ra, struct wexxolin_route rb)
{
    size_t all = PAD + length + PAD, behind = PAD + written;
    group_entries += all;
    if (memcmp(a, b, all * size) == 0 && memcmp(a, old, PAD * size) == 0 &&
        memcmp((const uint8_t *)a + behind * size, (const uint8_t *)old + behind * size, (all - behind) * size) == 0)
        return;
    tell_route(ra, rb, name);
    for (size_t i = 0, told = 0; i < all && told < 20; i++) {
        uint64_t x = entry(a, size, i), y = entry(b, size, i), z = entry(old, size, i);
        int may_change = i >= PAD && i < behind;
        if (x != y || (!may_change && x != z)) {
            tell("%s entry %ld: library %llu, second router %llu, before %llu%s", name, (long)i - PAD, (unsigned long long)x,
                 (unsigned long long)y, (unsigned long long)z, may_change ? "" : " (to be kept)");
            told++;
        }
    }
    end_of_route(c);
}

static void fill_slice(void *old, void *b, size_t size, size_t length)
{
    size_t bytes = (PAD + length + PAD) * size;
    dice_fill(&dice, old, bytes);
    memcpy(b, old, bytes);
}

static void fill_all(const struct route_case *c)
{
    fill_slice(before.g, ours.g, sizeof *before.g, c->g_len);
    fill_slice(before.parents, ours.parents, sizeof *before.parents, c->parents_len);
    fill_slice(before.marks, ours.marks, sizeof *before.marks, c->marks_len);
    fill_slice(before.legs, ours.legs, sizeof *before.legs, c->legs_len);
    fill_slice(before.path, ours.path, sizeof *before.path, c->path_len);
}

static struct wexxolin_route call_route(const struct route_case *c, enum flush flush)
{
    request = c, tell_request = tell_route_request;
    const uint8_t *cells = lend_bytes(&cells_room, c->cells, c->cells_len, flush);
    uint64_t *g = lend_entries(&g_room, before.g, sizeof *g, c->g_len, flush);
    wexxolin_vertex *parents = lend_entries(&parents_room, before.parents, sizeof *parents, c->parents_len, flush);
    uint8_t *marks = lend_entries(&marks_room, before.marks, sizeof *marks, c->marks_len, flush);
    wexxolin_vertex *legs = lend_entries(&legs_room, before.legs, sizeof *legs, c->legs_len, flush);
    wexxolin_vertex *path = lend_entries(&path_room, before.path, sizeof *path, c->path_len, flush);
    struct wexxolin_route answer =
        wexxolin_route(cells, c->cells_len, c->width, c->height, c->sx, c->sy, c->gx, c->gy, g, c->g_len, parents,
                       c->parents_len, marks, c->marks_len, legs, c->legs_len, path, c->path_len);
    fetch_entries(&g_room, theirs.g, before.g, sizeof *g, c->g_len);
    fetch_entries(&parents_room, theirs.parents, before.parents, sizeof *parents, c->parents_len);
    fetch_entries(&marks_room, theirs.marks, before.marks, sizeof *marks, c->marks_len);
    fetch_entries(&legs_room, theirs.legs, before.legs, sizeof *legs, c->legs_len);
    fetch_entries(&path_room, theirs.path, before.path, sizeof *path, c->path_len);
    return answer;
}

static void check_route(const struct route_case *c, struct wexxolin_route b, enum flush flush)
{
    struct wexxolin_route a = call_route(c, flush);
    count(8);
    if (!SAME_ANSWER(a, b)) {
        tell_route(a, b, "the answers differ");
        end_of_route(c);
    }
    int searched = b.number == 0 || b.number == 7 || b.number == 8;
    size_t work = searched ? (c->width + 1) * (c->height + 1) : 0, path = b.number == 0 ? (size_t)b.vertices : 0;
    compare_slice(c, "g", theirs.g, ours.g, before.g, sizeof *ours.g, c->g_len, work, a, b);
    compare_slice(c, "parents", theirs.parents, ours.parents, before.parents, sizeof *ours.parents, c->parents_len, work, a, b);
    compare_slice(c, "marks", theirs.marks, ours.marks, before.marks, sizeof *ours.marks, c->marks_len, work, a, b);
    compare_slice(c, "legs", theirs.legs, ours.legs, before.legs, sizeof *ours.legs, c->legs_len, work, a, b);
    compare_slice(c, "path", theirs.path, ours.path, before.path, sizeof *ours.path, c->path_len, path, a, b);
}

static struct wexxolin_route compare_route(const struct route_case *c)
{
    fill_all(c);
    struct wexxolin_route b = second_route(
        c->cells, c->cells_len, c->width, c->height, c->sx, c->sy, c->gx, c->gy, ours.g + PAD, c->g_len, ours.parents + PAD,
        c->parents_len, ours.marks + PAD, c->marks_len, ours.legs + PAD, c->legs_len, ours.path + PAD, c->path_len);
    check_route(c, b, AT_END);
    check_route(c, b, AT_FRONT);
    return b;
}

static struct route_case route_on(const uint8_t *cells, size_t width, size_t height)
{
    size_t vertices = (width + 1) * (height + 1);
    return (struct route_case){cells,    width * height, width,    height,   0, 0, 0, 0,
                               vertices, vertices,       vertices, vertices, vertices};
}

/* Slices as long as needed, or somewhat longer. */
static void lengthen(struct route_case *c)
{
    c->g_len += chance(30) ? below(SPARE) : 0;
    c->parents_len += chance(30) ? below(SPARE) : 0;
    c->marks_len += chance(30) ? below(SPARE) : 0;
    c->legs_len += chance(30) ? below(SPARE) : 0;
    c->path_len += chance(30) ? below(SPARE) : 0;
}

/* A path slice with room to spare, exactly long enough, one short and empty. */
static struct wexxolin_route compare_route_by_path_lengths(struct route_case c)
{
    struct wexxolin_route answer = compare_route(&c);
    if (answer.number == 0) {
        c.path_len = (size_t)answer.vertices;
        compare_route(&c);
        c.path_len--;
        compare_route(&c);
    }
    c.path_len = 0;
    compare_route(&c);
    return answer;
}

static void random_ends(struct route_case *c)
{
    c->sx = below(c->width + 1), c->sy = below(c->height + 1);
    c->gx = below(c->width + 1), c->gy = below(c->height + 1);
}

static void opposite_corners(struct route_case *c)
{
    c->sx = below(2) ? c->width : 0, c->sy = below(2) ? c->height : 0;
    c->gx = c->width - c->sx, c->gy = c->height - c->sy;
}

/* ---------- what the document promises of a route, apart from the second router ---------- */

static int blocked_at(const struct route_case *c, size_t i, size_t j) /* i, j one too large, so that outside is not below 0 */
{
    return i == 0 || j == 0 || i > c->width || j > c->height || c->cells[(j - 1) * c->width + i - 1];
}

/* "A pinched vertex is one on the inside of the board with two diagonally opposite cells blocked and the other two free." */
static int pinched_at(const struct route_case *c, size_t x, size_t y)
{
    int nw = blocked_at(c, x, y), ne = blocked_at(c, x + 1, y), sw = blocked_at(c, x, y + 1), se = blocked_at(c, x + 1, y + 1);
    return x > 0 && x < c->width && y > 0 && y < c->height && nw == se && ne == sw && nw != ne;
}

/* "a pinched vertex other than start and goal is nobody's visible neighbour" */
static int is_somebodys(const struct route_case *c, size_t v)
{
    size_t stride = c->width + 1, x = v % stride, y = v / stride;
    return v == c->sy * stride + c->sx || v == c->gy * stride + c->gx || !pinched_at(c, x, y);
}

static void flood(const struct route_case *c, uint8_t *reached)
{
    static uint16_t waiting[MOST_VERTICES];
    size_t stride = c->width + 1, first = 0, last = 0, start = c->sy * stride + c->sx;
    memset(reached, 0, stride * (c->height + 1));
    reached[start] = 1;
    waiting[last++] = (uint16_t)start;
    while (first < last) {
        size_t v = waiting[first++], x = v % stride, y = v / stride;
        int nw = blocked_at(c, x, y), ne = blocked_at(c, x + 1, y), sw = blocked_at(c, x, y + 1), se = blocked_at(c, x + 1, y + 1);
        long s = (long)stride;
        int open[8] = {!nw, !(nw && ne), !ne, !(nw && sw), !(ne && se), !sw, !(sw && se), !se};
        long step[8] = {-s - 1, -s, -s + 1, -1, 1, s - 1, s, s + 1};
        for (int k = 0; k < 8; k++) {
            size_t w = (size_t)((long)v + step[k]);
            if (open[k] && !reached[w] && is_somebodys(c, w)) {
                reached[w] = 1;
                waiting[last++] = (uint16_t)w;
            }
        }
    }
}

/* Every pair of visible neighbours is tested once, when the first of the two is expanded; "a pair of them counts once,
   whichever way round". So the tests are the pairs of which at least one is expanded. */
static uint64_t pairs_with_expanded(const struct route_case *c, const uint8_t *marks)
{
    uint64_t pairs = 0;
    size_t stride = c->width + 1;
    for (size_t y = 0; y <= c->height; y++)
        for (size_t x = 0; x <= c->width; x++) {
            int ne = blocked_at(c, x + 1, y), sw = blocked_at(c, x, y + 1), se = blocked_at(c, x + 1, y + 1);
            size_t v = y * stride + x, right = v + 1, down = v + stride;
            if (!is_somebodys(c, v))
                continue;
            pairs += !(ne && se) && (marks[v] == 2 || marks[right] == 2) && is_somebodys(c, right);
            pairs += !(sw && se) && (marks[v] == 2 || marks[down] == 2) && is_somebodys(c, down);
            pairs += !se && (marks[v] == 2 || marks[down + 1] == 2) && is_somebodys(c, down + 1);
            pairs += !sw && (marks[v] == 2 || marks[down - 1] == 2) && is_somebodys(c, down - 1);
        }
    return pairs;
}

/* Every seen vertex is within reach; with no path, all within reach are expanded; both counts are those of the marks.
   Returns what is wrong, or NULL. */
static const char *wrong_marks(const struct route_case *c, struct wexxolin_route r, const uint8_t *reached)
{
    const uint8_t *marks = theirs.marks + PAD;
    const char *wrong = NULL;
    uint64_t expanded = 0;
    for (size_t v = 0; v < (c->width + 1) * (c->height + 1); v++) {
        expanded += marks[v] == 2;
        if (marks[v] > 2 || (marks[v] && !reached[v]))
            wrong = "a mark above 2, or a vertex out of reach seen";
        if (r.number == 8 && reached[v] && marks[v] != 2)
            wrong = "no path, and a vertex within reach not expanded";
        if (marks[v] == 0 && (theirs.g[PAD + v] || theirs.parents[PAD + v] || theirs.legs[PAD + v]))
            wrong = "an unseen vertex with a g, parent or legs";
    }
    if (expanded != r.expansions)
        wrong = "expansions are not the expanded marks";
    if (pairs_with_expanded(c, marks) != r.tests)
        wrong = "tests are not the pairs of visible neighbours with an expanded one";
    return wrong;
}

/* "each vertex's legs from the start: 0 there and where unseen, else one more than its parent's" Returns what is wrong, or NULL. */
static const char *wrong_legs(const struct route_case *c)
{
    size_t start = c->sy * (c->width + 1) + c->sx;
    const wexxolin_vertex *legs = theirs.legs + PAD;
    for (size_t v = 0; v < (c->width + 1) * (c->height + 1); v++)
        if (theirs.marks[PAD + v] != 0 && legs[v] != (v == start ? 0 : legs[theirs.parents[PAD + v]] + 1))
            return "a vertex whose legs are not one more than its parent's";
    return NULL;
}

/* A path starts and ends where asked, only there it may be pinched, every leg has sight, the lengths of the legs add up. Returns
   what is wrong, or NULL. */
static const char *wrong_path(const struct route_case *c, struct wexxolin_route r)
{
    size_t stride = c->width + 1, goal = c->gy * stride + c->gx;
    const wexxolin_vertex *path = theirs.path + PAD;
    const char *wrong = NULL;
    uint64_t units = 0;
    if (r.number == 0 && (path[0] != c->sy * stride + c->sx || path[r.vertices - 1] != goal || theirs.marks[PAD + goal] != 1))
        wrong = "the path's ends, or the goal's mark";
    for (size_t i = 1; i < r.vertices; i++) {
        size_t ax = path[i - 1] % stride, ay = path[i - 1] / stride, bx = path[i] % stride, by = path[i] / stride;
        if (second_sight(c->cells, c->cells_len, c->width, c->height, ax, ay, bx, by).sight != 1)
            wrong = "a leg of the path without sight";
        if (i + 1 < r.vertices && pinched_at(c, bx, by))
            wrong = "a pinched vertex between the path's ends";
        units += second_length_between(ax, ay, bx, by).units;
    }
    if (units != r.units || r.cells != (double)units / 1048576.0)
        wrong = "the legs' lengths do not add up";
    if (r.number == 0 && r.legs + 1 != r.vertices)
        wrong = "the legs are not the vertices less one";
    return wrong;
}

/* A path exists exactly if the goal is reached over visible neighbours; and what the two above say. */
static void check_promises_of_route(const struct route_case *c, struct wexxolin_route r)
{
    static uint8_t reached[MOST_VERTICES];
    if (r.number != 0 && r.number != 8)
        return;
    flood(c, reached);
    const char *marks = wrong_marks(c, r, reached), *legs = wrong_legs(c), *wrong = wrong_path(c, r);
    if (legs)
        wrong = legs;
    if (marks)
        wrong = marks;
    if ((r.number == 0) != (reached[c->gy * (c->width + 1) + c->gx] == 1))
        wrong = "a path exists exactly if the goal is within reach";
    group_entries += (c->width + 1) * (c->height + 1);
    if (wrong) {
        tell_route(r, r, wrong);
        end_of_route(c);
    }
}

/* ---------- jobs ---------- */

struct job_case {
    const struct job *job;
    size_t board_len, index;
};

static void tell_board_read(const void *of)
{
    const struct job_case *c = of;
    tell("board read into a slice of %zu", c->board_len);
    tell_job(c->job->bytes, c->job->length);
}

static void tell_net_read(const void *of)
{
    const struct job_case *c = of;
    tell("net read at index %zu", c->index);
    tell_job(c->job->bytes, c->job->length);
}

/* A board slice in both readers' hands. Only width * height bytes may have changed, and none with a refusal. */
static void check_board_slice(const uint8_t *a, const uint8_t *b, const uint8_t *old, size_t all, size_t written)
{
    for (size_t i = 0, told = 0; i < all && told < 20; i++)
        if (a[i] != b[i] || ((i < PAD || i >= PAD + written) && a[i] != old[i])) {
            tell("board byte %ld: library %u, second router %u, before %u", (long)i - PAD, a[i], b[i], old[i]);
            told++;
        }
}

static void check_board(const struct job_case *c, struct wexxolin_board b, const uint8_t *b_board, const uint8_t *old, enum flush flush)
{
    static uint8_t a_board[ROOM];
    request = c, tell_request = tell_board_read;
    const uint8_t *bytes = lend_bytes(&job_room, c->job->bytes, c->job->length, flush);
    uint8_t *board = lend_entries(&board_room, old, 1, c->board_len, flush);
    struct wexxolin_board a = wexxolin_board(bytes, c->job->length, board, c->board_len);
    fetch_entries(&board_room, a_board, old, 1, c->board_len);
    size_t all = PAD + c->board_len + PAD;
    count(5 + all);
    check_board_slice(a_board, b_board, old, all, b.number == 0 ? (size_t)(b.width * b.height) : 0);
    if (SAME_ANSWER(a, b) && !telling)
        return;
    tell_number("number", a.number, b.number);
    tell_number("place", a.place, b.place);
    tell_number("second", a.second, b.second);
    tell_number("width", a.width, b.width);
    tell_number("height", a.height, b.height);
    tell_number("nets", a.nets, b.nets);
    tell_board_read(c);
    end_of_telling();
}

static struct wexxolin_board compare_board(const struct job *job, size_t board_len)
{
    static uint8_t old[ROOM], b_board[ROOM];
    struct job_case c = {job, board_len, 0};
    fill_slice(old, b_board, 1, board_len);
    struct wexxolin_board b = second_board(job->bytes, job->length, b_board + PAD, board_len);
    check_board(&c, b, b_board, old, AT_END);
    check_board(&c, b, b_board, old, AT_FRONT);
    return b;
}

static void check_net(const struct job_case *c, struct wexxolin_net b, enum flush flush)
{
    request = c, tell_request = tell_net_read;
    const uint8_t *bytes = lend_bytes(&job_room, c->job->bytes, c->job->length, flush);
    struct wexxolin_net a = wexxolin_net(bytes, c->job->length, c->index);
    count(7);
    if (SAME_ANSWER(a, b))
        return;
    tell_number("number", a.number, b.number);
    tell_number("place", a.place, b.place);
    tell_number("second", a.second, b.second);
    tell_number("net", a.net, b.net);
    tell_number("sx", a.sx, b.sx);
    tell_number("sy", a.sy, b.sy);
    tell_number("gx", a.gx, b.gx);
    tell_number("gy", a.gy, b.gy);
    tell_net_read(c);
    end_of_telling();
}

static struct wexxolin_net compare_net(const struct job *job, size_t index)
{
    struct job_case c = {job, 0, index};
    struct wexxolin_net b = second_net(job->bytes, job->length, index);
    check_net(&c, b, AT_END);
    check_net(&c, b, AT_FRONT);
    return b;
}

/* All board lengths that matter, all nets and some that are not there. */
static struct wexxolin_board compare_job(const struct job *job)
{
    struct wexxolin_board b = compare_board(job, MOST_CELLS + below(SPARE));
    size_t cells = (size_t)(b.width * b.height);
    compare_board(job, 0);
    if (b.number == 0) {
        compare_board(job, cells);
        compare_board(job, cells - 1);
        compare_board(job, cells + 1);
        compare_board(job, below(cells));
    }
    for (size_t index = 0; index < b.nets; index++)
        compare_net(job, index);
    compare_net(job, (size_t)b.nets);
    compare_net(job, (size_t)b.nets + 1);
    compare_net(job, SIZE_MAX);
    compare_net(job, (size_t)1 << 61);
    compare_net(job, (size_t)1 << 32);
    return b;
}

/* The route program's lines, put together from the library's calls. */
static void library_lines(const struct job *job, struct second_text *text)
{
    static uint8_t cells[MOST_CELLS];
    struct wexxolin_board b = wexxolin_board(job->bytes, job->length, cells, MOST_CELLS);
    if (b.number)
        second_print(text, b.number == 23 ? "refused %u at %u %u\n" : "refused %u at %u\n", (unsigned)b.number, (unsigned)b.place,
                     (unsigned)b.second);
    for (size_t index = 0; b.number == 0 && index < b.nets; index++) {
        struct wexxolin_net n = wexxolin_net(job->bytes, job->length, index);
        struct wexxolin_route r = wexxolin_route(
            cells, (size_t)(b.width * b.height), (size_t)b.width, (size_t)b.height, (size_t)n.sx, (size_t)n.sy, (size_t)n.gx,
            (size_t)n.gy, theirs.g, ROOM, theirs.parents, ROOM, theirs.marks, ROOM, theirs.legs, ROOM, theirs.path, ROOM);
        if (r.number == 8)
            second_print(text, "net %u none expanded %u tests %u\n", (unsigned)n.net, (unsigned)r.expansions,
                         (unsigned)r.tests);
        if (r.number != 0)
            continue;
        second_print(text, "net %u path %llu expanded %u tests %u at", (unsigned)n.net, (unsigned long long)r.units,
                     (unsigned)r.expansions, (unsigned)r.tests);
        for (size_t i = 0; i < r.vertices; i++)
            second_print(text, " %u,%u", (unsigned)(theirs.path[i] % (b.width + 1)),
                         (unsigned)(theirs.path[i] / (b.width + 1)));
        second_print(text, "\n");
    }
}

static void tell_lines(const char *whose, const struct second_text *text)
{
    tell("%s:", whose);
    for (size_t at = 0, end; at < text->length; at = end + 1) {
        for (end = at; end < text->length && text->bytes[end] != '\n'; end++)
            ;
        tell("  %.*s", (int)(end - at), text->bytes + at);
    }
}

static void compare_lines(const struct job *job, const char *expected)
{
    struct second_text a = {0}, b = {0};
    library_lines(job, &a);
    second_lines(job->bytes, job->length, &b);
    count(b.length);
    int same = a.length == b.length && (b.length == 0 || memcmp(a.bytes, b.bytes, b.length) == 0);
    int right = !expected || (b.length == strlen(expected) && (b.length == 0 || memcmp(b.bytes, expected, b.length) == 0));
    if (!same || !right) {
        tell("the lines of a job%s", right ? "" : " (not those of the document)");
        tell_lines("library", &a);
        tell_lines("second router", &b);
        tell_job(job->bytes, job->length);
        end_of_telling();
    }
    free(a.bytes);
    free(b.bytes);
}

/* ---------- group: the document's own numbers ---------- */

static void expect(const char *what, uint64_t got, uint64_t wanted)
{
    count(1);
    if (got == wanted)
        return;
    tell("document 01: %s: %llu expected, %llu found", what, (unsigned long long)wanted, (unsigned long long)got);
    end_of_telling();
}

static void document_lengths(void)
{
    static const int rows[][3] = {{0, 0, 0},        {1, 0, 1048576},   {1, 1, 1482910},
                                  {-1, 2, 2344687}, {3, -4, 5242880}, {63, 63, 93423355}};
    for (size_t i = 0; i < sizeof rows / sizeof *rows; i++) {
        compare_differences(rows[i][0], rows[i][1]);
        expect("units", wexxolin_length(rows[i][0], rows[i][1]).units, (uint64_t)rows[i][2]);
    }
}

/* A leg on 2 by 2 cells, and what document 01 says of it, with document 02's item 6; what stops it, by items 2 and 6. */
static void document_sights(void)
{
    static const struct {
        uint8_t cells[4];
        size_t ax, ay, bx, by;
        uint64_t sight, kind, x, y, x2, y2;
    } rows[] = {{{0, 1, 0, 0}, 0, 0, 2, 1, 0, WEXXOLIN_CELL, 1, 0, 0, 0},    {{0, 1, 0, 0}, 2, 1, 0, 0, 0, WEXXOLIN_CELL, 1, 0, 0, 0},
                {{0, 1, 0, 0}, 0, 0, 2, 2, 1, WEXXOLIN_NOTHING, 0, 0, 0, 0}, {{0, 1, 0, 0}, 1, 0, 1, 1, 1, WEXXOLIN_NOTHING, 0, 0, 0, 0},
                {{0, 1, 0, 0}, 1, 0, 2, 0, 0, WEXXOLIN_EDGE, 1, 0, 2, 0},    {{0, 1, 0, 0}, 2, 0, 1, 0, 0, WEXXOLIN_EDGE, 2, 0, 1, 0},
                {{0, 1, 0, 0}, 0, 0, 2, 0, 0, WEXXOLIN_EDGE, 1, 0, 2, 0},    {{0, 1, 0, 0}, 2, 1, 2, 0, 0, WEXXOLIN_EDGE, 2, 1, 2, 0},
                {{0, 1, 1, 0}, 0, 0, 2, 2, 0, WEXXOLIN_VERTEX, 1, 1, 0, 0},  {{0, 1, 1, 0}, 2, 2, 0, 0, 0, WEXXOLIN_VERTEX, 1, 1, 0, 0},
                {{0, 1, 1, 0}, 1, 0, 1, 2, 0, WEXXOLIN_VERTEX, 1, 1, 0, 0},  {{0, 1, 1, 0}, 0, 0, 1, 1, 1, WEXXOLIN_NOTHING, 0, 0, 0, 0},
                {{0, 1, 1, 1}, 1, 0, 1, 2, 0, WEXXOLIN_EDGE, 1, 1, 1, 2},    {{0, 1, 0, 0}, 1, 0, 1, 2, 1, WEXXOLIN_NOTHING, 0, 0, 0, 0}};
    for (size_t i = 0; i < sizeof rows / sizeof *rows; i++) {
        struct leg_case c = {rows[i].cells, 4, 2, 2, rows[i].ax, rows[i].ay, rows[i].bx, rows[i].by};
        compare_sight_both_ways(c);
        struct wexxolin_sight said = compare_sight(&c);
        expect("sight", said.sight, rows[i].sight);
        expect("kind", said.kind, rows[i].kind);
        expect("x", said.x, rows[i].x);
        expect("y", said.y, rows[i].y);
        expect("x2", said.x2, rows[i].x2);
        expect("y2", said.y2, rows[i].y2);
    }
}

static void document_routes(void)
{
    static const struct {
        size_t width, height, sx, sy, gx, gy;
        uint8_t cells[4];
        uint64_t number, units, vertices, expansions, tests;
    } rows[] = {{1, 1, 0, 0, 1, 1, {0}, 0, 1482910, 2, 1, 3},      {1, 1, 0, 0, 1, 1, {1}, 8, 0, 0, 1, 0},
                {1, 1, 0, 0, 0, 0, {1}, 0, 0, 1, 0, 0},            {3, 1, 0, 0, 3, 0, {0, 1, 0}, 8, 0, 0, 4, 6},
                {2, 2, 0, 0, 2, 1, {0, 1, 0, 0}, 0, 2531486, 3, 3, 10},
                /* by hand, under item 6: not through the pinched vertex, to it, and from it */
                {2, 2, 0, 0, 2, 2, {0, 1, 1, 0}, 8, 0, 0, 3, 3},   {2, 2, 0, 0, 1, 1, {0, 1, 1, 0}, 0, 1482910, 2, 1, 3},
                {2, 2, 1, 1, 2, 2, {0, 1, 1, 0}, 0, 1482910, 2, 1, 6}};
    for (size_t i = 0; i < sizeof rows / sizeof *rows; i++) {
        struct route_case c = route_on(rows[i].cells, rows[i].width, rows[i].height);
        c.sx = rows[i].sx, c.sy = rows[i].sy, c.gx = rows[i].gx, c.gy = rows[i].gy;
        struct wexxolin_route r = compare_route_by_path_lengths(c);
        expect("number", r.number, rows[i].number);
        expect("units", r.units, rows[i].units);
        expect("vertices", r.vertices, rows[i].vertices);
        expect("expansions", r.expansions, rows[i].expansions);
        expect("tests", r.tests, rows[i].tests);
    }
    struct route_case c = route_on(rows[4].cells, 2, 2);
    c.gx = 2, c.gy = 1, c.path_len = 3;
    expect("a path slice of 3 serves net 1", compare_route(&c).number, 0);
    c.path_len = 2;
    expect("2 gives 7", compare_route(&c).number, 7);
    expect("with 7 the place is the vertex count needed", compare_route(&c).place, 3);
}

static void document_jobs(void)
{
    static struct job job;
    job.length = 0;
    compare_lines(&job, "refused 12 at 0\n");
    job_hex(&job, "0100020200000000");
    compare_job(&job);
    compare_lines(&job, "");
    job_hex(&job, "0200010002010000 0301000002010000 0302000000000000");
    compare_job(&job);
    compare_lines(&job, "net 1 path 2531486 expanded 3 tests 10 at 0,0 1,1 2,1\nnet 2 path 0 expanded 0 tests 0 at 0,0\n");
    job.length = 0;
    job_hex(&job, "0100030100000000 0200010002010000 0307000003000000");
    compare_lines(&job, "net 7 none expanded 4 tests 6\n");
}

static void group_document(void)
{
    begin_group("the document's own numbers");
    document_lengths();
    document_sights();
    document_routes();
    document_jobs();
    end_group();
}

/* ---------- groups: length and direction ---------- */

static void group_differences(void)
{
    static const int32_t far[] = {INT32_MIN,     INT32_MIN + 1, INT32_MIN + 63, -1073741824, -65536, -32768, -257, -256, -255,
                                  -64,           -63,           -1,             0,           1,      63,     64,   255,  256,
                                  257,           32767,         65535,          65536,       65599,  INT32_MAX, INT32_MAX - 1,
                                  1073741824,    46341,         -46341,         46340};
    enum { FAR = sizeof far / sizeof *far };
    begin_group("length and direction, differences");
    for (int32_t dx = -66; dx <= 66; dx++)
        for (int32_t dy = -66; dy <= 66; dy++)
            compare_differences(dx, dy);
    for (size_t i = 0; i < FAR; i++)
        for (size_t j = 0; j < FAR; j++)
            compare_differences(far[i], far[j]);
    for (size_t i = 0; i < scaled(scale, 2000); i++) {
        int32_t dx = (int32_t)dice_throw(&dice), dy = (int32_t)dice_throw(&dice);
        compare_differences(dx, dy >> below(31));
    }
    end_group();
}

static void group_between(void)
{
    static const size_t far[] = {0,       1,          62,         63,         64,          65,          255,          256,
                                 65535,   65536,      65599,      0x7fffffff, 0x80000000u, 0xffffffffu, 0x100000000u, 0x10000003fu,
                                 0x8000000000000000u, SIZE_MAX - 62, SIZE_MAX};
    enum { FAR = sizeof far / sizeof *far };
    begin_group("length and direction, between");
    for (size_t k = 0; k < scaled(scale, 1); k++)
        for (long dx = -63; dx <= 63; dx++)
            for (long dy = -63; dy <= 63; dy++) {
                size_t ax = (dx < 0 ? (size_t)-dx : 0) + below(64 - (size_t)labs(dx));
                size_t ay = (dy < 0 ? (size_t)-dy : 0) + below(64 - (size_t)labs(dy));
                compare_between(ax, ay, (size_t)((long)ax + dx), (size_t)((long)ay + dy));
            }
    for (size_t i = 0; i < FAR; i++)
        for (size_t j = 0; j < FAR; j++)
            for (size_t k = 0; k < FAR; k++)
                for (size_t l = 0; l < FAR; l++)
                    if (i % 4 == 3 || (i + j + k + l) % 3 == 0)
                        compare_between(far[i], far[j], far[k], far[l]);
    end_group();
}

/* ---------- groups: every small board ---------- */

static void cells_of_pattern(uint8_t *cells, size_t count, size_t pattern)
{
    for (size_t i = 0; i < count; i++)
        cells[i] = pattern >> i & 1;
}

static void all_sights_of(size_t width, size_t height)
{
    uint8_t cells[25];
    for (size_t pattern = 0; pattern < (size_t)1 << width * height; pattern++) {
        cells_of_pattern(cells, width * height, pattern);
        for (size_t a = 0; a < (width + 1) * (height + 1); a++)
            for (size_t b = 0; b < (width + 1) * (height + 1); b++) {
                struct leg_case c = {cells,           width * height,  width,           height, a % (width + 1),
                                     a / (width + 1), b % (width + 1), b / (width + 1)};
                compare_sight(&c);
            }
    }
}

static void all_routes_of(size_t width, size_t height)
{
    uint8_t cells[25];
    for (size_t pattern = 0; pattern < (size_t)1 << width * height; pattern++) {
        cells_of_pattern(cells, width * height, pattern);
        for (size_t s = 0; s < (width + 1) * (height + 1); s++)
            for (size_t g = 0; g < (width + 1) * (height + 1); g++) {
                struct route_case c = route_on(cells, width, height);
                c.sx = s % (width + 1), c.sy = s / (width + 1), c.gx = g % (width + 1), c.gy = g / (width + 1);
                check_promises_of_route(&c, compare_route(&c));
            }
    }
}

/* All widths and heights whose boards and pairs of vertices are few enough. */
static void for_small_sizes(size_t limit, void (*all_of)(size_t, size_t))
{
    for (size_t width = 1; width <= 12; width++)
        for (size_t height = 1; height <= 12; height++) {
            size_t vertices = (width + 1) * (height + 1);
            if (width * height <= 20 && ((size_t)1 << width * height) * vertices * vertices <= limit) {
                printf("  all boards of %zu x %zu\n", width, height);
                all_of(width, height);
            }
        }
}

static void group_small_sights(void)
{
    begin_group("sight, every leg of every small board");
    for_small_sizes(scaled(scale, 1700000), all_sights_of);
    end_group();
}

static void group_small_routes(void)
{
    begin_group("route, every small board and ends");
    for_small_sizes(scaled(scale, 140000), all_routes_of);
    end_group();
}

/* ---------- groups: random boards ---------- */

static uint8_t cells[MOST_CELLS + SPARE];

static size_t random_side(void)
{
    size_t kind = below(20);
    return 1 + (kind < 10 ? below(10) : kind < 17 ? below(24) : below(63));
}

static void random_board(size_t width, size_t height)
{
    static const size_t percents[] = {0, 2, 5, 10, 15, 20, 25, 30, 35, 40, 45, 50, 60, 75, 90, 100};
    switch (below(8)) {
    case 0: board_keepouts(&dice, cells, width, height, below(12)); break;
    case 1: board_chequered(&dice, cells, width, height, below(40)); break;
    case 2: board_staircases(&dice, cells, width, height); break;
    default: board_scattered(&dice, cells, width, height, percents[below(sizeof percents / sizeof *percents)]); break;
    }
}

static struct leg_case random_leg(size_t width, size_t height)
{
    struct leg_case c = {cells, width * height, width, height, 0, 0, 0, 0};
    c.ax = below(width + 1), c.ay = below(height + 1);
    c.bx = below(width + 1), c.by = below(height + 1);
    return c;
}

static void group_random_sights(void)
{
    begin_group("sight, random legs of larger boards");
    for (size_t k = 0; k < scaled(scale, 400); k++) {
        size_t width = random_side(), height = random_side();
        if (k % 4 == 0)
            width = 60 + below(4), height = 60 + below(4);
        random_board(width, height);
        if (k % 8 == 0)
            board_scattered(&dice, cells, width, height, below(4));
        for (size_t i = 0; i < 40; i++) {
            struct leg_case c = random_leg(width, height);
            if (i % 8 == 0)
                c.bx = c.ax;
            if (i % 8 == 1)
                c.by = c.ay;
            if (i % 8 == 2)
                c.ax = 0, c.ay = 0, c.bx = width, c.by = height;
            compare_sight_both_ways(c);
        }
    }
    end_group();
}

/* One blocked cell only: the leg has sight exactly if it does not cross that cell. */
static void group_single_cells(void)
{
    begin_group("sight, single blocked or free cells");
    for (size_t k = 0; k < scaled(scale, 6000); k++) {
        size_t width = 1 + below(63), height = 1 + below(63);
        int all_but_one = k % 8 == 0;
        memset(cells, all_but_one, width * height);
        cells[below(width * height)] ^= 1;
        struct leg_case c = random_leg(width, height);
        if (all_but_one)
            c.bx = c.ax + 1 - below(3), c.by = c.ay + 1 - below(3);
        if (c.bx <= width && c.by <= height)
            compare_sight_both_ways(c);
    }
    end_group();
}

/* A vertex as near to the leg as one can be without lying on it, and one of the four cells around it the only blocked one:
   the leg crosses that cell by a hair or misses it by a hair. */
static void sights_near(struct leg_case c)
{
    long dx = (long)c.bx - (long)c.ax, dy = (long)c.by - (long)c.ay;
    for (size_t x = 0; x <= c.width; x++)
        for (size_t y = 0; y <= c.height; y++) {
            long side = dx * ((long)y - (long)c.ay) - dy * ((long)x - (long)c.ax);
            int within = (x > c.ax) != (x > c.bx) && (y > c.ay) != (y > c.by);
            if (!within || side == 0 || labs(side) > 1 + (long)below(2) || chance(30))
                continue;
            for (size_t k = 0; k < 4; k++) {
                size_t i = x - k % 2, j = y - k / 2;
                if (i >= c.width || j >= c.height)
                    continue;
                cells[j * c.width + i] = 1;
                compare_sight_both_ways(c);
                cells[j * c.width + i] = 0;
            }
        }
}

static void group_near_sights(void)
{
    begin_group("sight, cells crossed or missed by a hair");
    for (size_t k = 0; k < scaled(scale, 500); k++) {
        size_t least = k % 2 ? 1 : 58, width = least + below(64 - least), height = least + below(64 - least);
        memset(cells, 0, width * height);
        struct leg_case c = random_leg(width, height);
        if (k % 2 == 0)
            c.ax = below(3), c.ay = below(3), c.bx = width - below(3), c.by = height - below(3);
        if (k % 4 == 0)
            c.ay = height - c.ay, c.by = height - c.by;
        sights_near(c);
    }
    end_group();
}

/* A vertex on the inside of a board of at least 2 by 2, pinched if such a one is found by some throws. */
static void throw_pinched(const struct route_case *on, size_t *x, size_t *y)
{
    for (int k = 0; k < 40; k++) {
        *x = 1 + below(on->width - 1), *y = 1 + below(on->height - 1);
        if (pinched_at(on, *x, *y))
            return;
    }
}

/* From a vertex so many equal steps, as long as they stay on the board. */
static void go_on(const struct route_case *on, size_t *x, size_t *y, long dx, long dy, size_t steps)
{
    for (; steps > 0; steps--) {
        size_t nx = (size_t)((long)*x + dx), ny = (size_t)((long)*y + dy);
        if (nx > on->width || ny > on->height)
            return;
        *x = nx, *y = ny;
    }
}

/* Legs through a pinched vertex, and legs that end in one, on boards made of diagonal pairs. */
static void group_pinched_sights(void)
{
    begin_group("sight, diagonal pairs");
    for (size_t k = 0; k < scaled(scale, 500); k++) {
        size_t most = k % 4 ? 10 : 62, width = 2 + below(most), height = 2 + below(most), pairs = 1 + below(k % 3 ? 4 : 30);
        board_pairs(&dice, cells, width, height, pairs);
        struct route_case on = route_on(cells, width, height);
        for (size_t i = 0; i < 30; i++) {
            struct leg_case c = random_leg(width, height);
            long dx = (long)below(i % 3 ? 3 : 7) - (i % 3 ? 1 : 3), dy = (long)below(i % 2 ? 3 : 7) - (i % 2 ? 1 : 3);
            throw_pinched(&on, &c.ax, &c.ay);
            c.bx = c.ax, c.by = c.ay;
            go_on(&on, &c.ax, &c.ay, -dx, -dy, below(4));
            go_on(&on, &c.bx, &c.by, dx, dy, below(4));
            compare_sight_both_ways(c);
        }
    }
    end_group();
}

static void random_routes(const char *name, size_t boards, void (*make)(size_t, size_t), size_t least, size_t most, int corners)
{
    begin_group(name);
    for (size_t k = 0; k < boards; k++) {
        size_t width = least + below(most - least + 1), height = least + below(most - least + 1);
        make(width, height);
        struct route_case c = route_on(cells, width, height);
        if (corners && k % 2 == 0)
            opposite_corners(&c);
        else
            random_ends(&c);
        if (k % 64 == 5)
            c.gx = c.sx, c.gy = c.sy;
        lengthen(&c);
        struct wexxolin_route r = compare_route(&c);
        check_promises_of_route(&c, r);
        if (width * height <= 400 || k % 4 == 0)
            compare_route_by_path_lengths(c);
    }
    end_group();
}

static void make_maze(size_t width, size_t height) { board_maze(&dice, cells, width, height); }
static void make_serpentine(size_t width, size_t height) { board_serpentine(&dice, cells, width, height); }
static void make_chequered(size_t width, size_t height) { board_chequered(&dice, cells, width, height, below(25)); }
static void make_pairs(size_t width, size_t height) { board_pairs(&dice, cells, width, height, 1 + below(width * height / 3 + 1)); }
static void make_staircases(size_t width, size_t height) { board_staircases(&dice, cells, width, height); }
static void make_lattice(size_t width, size_t height) { board_lattice(&dice, cells, width, height, below(15)); }
static void make_mirrored(size_t width, size_t height) { board_mirrored(&dice, cells, width, height, below(40)); }
static void make_divided(size_t width, size_t height) { board_divided(&dice, cells, width, height); }
static void make_keepouts(size_t width, size_t height) { board_keepouts(&dice, cells, width, height, below(16)); }
static void make_sparse(size_t width, size_t height) { board_scattered(&dice, cells, width, height, below(12)); }
static void make_middling(size_t width, size_t height) { board_scattered(&dice, cells, width, height, 12 + below(30)); }
static void make_dense(size_t width, size_t height) { board_scattered(&dice, cells, width, height, 42 + below(55)); }

static void group_thin_routes(void)
{
    begin_group("route, long thin boards");
    for (size_t k = 0; k < scaled(scale, 400); k++) {
        size_t width = 1 + below(3), height = 40 + below(24);
        if (k % 2) {
            size_t swap = width;
            width = height, height = swap;
        }
        board_scattered(&dice, cells, width, height, below(35));
        struct route_case c = route_on(cells, width, height);
        if (k % 3)
            opposite_corners(&c);
        else
            random_ends(&c);
        lengthen(&c);
        check_promises_of_route(&c, compare_route(&c));
        compare_route_by_path_lengths(c);
    }
    end_group();
}

static void group_enclosed_routes(void)
{
    begin_group("route, start or goal walled in");
    for (size_t k = 0; k < scaled(scale, 150); k++) {
        size_t width = 1 + below(16), height = 1 + below(16);
        board_scattered(&dice, cells, width, height, below(20));
        struct route_case c = route_on(cells, width, height);
        random_ends(&c);
        if (k % 2)
            board_enclose(cells, width, height, c.sx, c.sy);
        else
            board_enclose(cells, width, height, c.gx, c.gy);
        lengthen(&c);
        check_promises_of_route(&c, compare_route(&c));
        compare_route_by_path_lengths(c);
    }
    end_group();
}

/* "it may only be the first or last vertex of a path": starts and goals that are pinched, one of them or both. */
static void group_pinched_routes(void)
{
    begin_group("route, pinched start or goal");
    for (size_t k = 0; k < scaled(scale, 600); k++) {
        size_t width = 2 + below(12), height = 2 + below(12);
        make_pairs(width, height);
        struct route_case c = route_on(cells, width, height);
        random_ends(&c);
        if (k % 3 != 1)
            throw_pinched(&c, &c.sx, &c.sy);
        if (k % 3 != 2)
            throw_pinched(&c, &c.gx, &c.gy);
        lengthen(&c);
        check_promises_of_route(&c, compare_route(&c));
        compare_route_by_path_lengths(c);
    }
    end_group();
}

/* Boards on which two open vertices have the same f and g, and not the same number of legs, when that decides. */
struct tied_board {
    size_t width, height;
    const char *cells;
    size_t sx, sy, gx, gy;
};
static const struct tied_board tied_boards[] = {
    {9, 6,
     ".....##.."
     "....#...."
     "..####.#."
     ".....#..."
     "........."
     "..#.#....",
     5, 1, 3, 5},
    {7, 5,
     "...#..."
     ".....#."
     "..#.#.."
     "..#...."
     "#.#.#..",
     7, 2, 2, 5},
};

/* One of the eight ways to turn and mirror a place in a field of width by height. */
static void turn(size_t way, size_t width, size_t height, size_t *x, size_t *y)
{
    if (way & 1)
        *x = width - 1 - *x;
    if (way & 2)
        *y = height - 1 - *y;
    if (way & 4) {
        size_t swap = *x;
        *x = *y, *y = swap;
    }
}

static void tied_route(const struct tied_board *b, size_t way, size_t changed)
{
    size_t width = way & 4 ? b->height : b->width, height = way & 4 ? b->width : b->height;
    for (size_t i = 0; i < b->width * b->height; i++) {
        size_t x = i % b->width, y = i / b->width;
        turn(way, b->width, b->height, &x, &y);
        cells[y * width + x] = b->cells[i] == '#';
    }
    for (; changed > 0; changed--)
        cells[below(width * height)] ^= 1;
    struct route_case c = route_on(cells, width, height);
    c.sx = b->sx, c.sy = b->sy, c.gx = b->gx, c.gy = b->gy;
    turn(way, b->width + 1, b->height + 1, &c.sx, &c.sy);
    turn(way, b->width + 1, b->height + 1, &c.gx, &c.gy);
    check_promises_of_route(&c, compare_route(&c));
}

/* As they are, and with one or two cells changed. */
static void group_tied_routes(void)
{
    begin_group("route, ties that legs decide");
    for (size_t k = 0; k < sizeof tied_boards / sizeof *tied_boards; k++)
        for (size_t way = 0; way < 8; way++)
            for (size_t n = 0; n < scaled(scale, 40); n++)
                tied_route(&tied_boards[k], way, n % 3);
    end_group();
}

static void group_random_routes(void)
{
    random_routes("route, small boards, few blocked", scaled(scale, 2500), make_sparse, 1, 10, 0);
    random_routes("route, small boards, middling", scaled(scale, 5000), make_middling, 1, 11, 1);
    random_routes("route, small boards, dense", scaled(scale, 1500), make_dense, 1, 12, 0);
    random_routes("route, medium boards, few blocked", scaled(scale, 60), make_sparse, 16, 36, 1);
    random_routes("route, medium boards, middling", scaled(scale, 120), make_middling, 16, 36, 1);
    random_routes("route, medium boards, dense", scaled(scale, 150), make_dense, 16, 36, 0);
    random_routes("route, large boards, few blocked", scaled(scale, 8), make_sparse, 50, 63, 1);
    random_routes("route, large boards, middling", scaled(scale, 12), make_middling, 50, 63, 1);
    random_routes("route, large boards, dense", scaled(scale, 20), make_dense, 50, 63, 0);
    random_routes("route, keepouts", scaled(scale, 150), make_keepouts, 5, 32, 1);
    random_routes("route, mazes", scaled(scale, 60), make_maze, 3, 31, 1);
    random_routes("route, large mazes", scaled(scale, 3), make_maze, 61, 63, 1);
    random_routes("route, serpentines", scaled(scale, 60), make_serpentine, 3, 31, 1);
    random_routes("route, large serpentines", scaled(scale, 3), make_serpentine, 61, 63, 1);
    random_routes("route, diagonal gaps", scaled(scale, 200), make_chequered, 2, 26, 1);
    random_routes("route, diagonal pairs", scaled(scale, 500), make_pairs, 2, 20, 1);
    random_routes("route, large boards, diagonal pairs", scaled(scale, 8), make_pairs, 50, 63, 1);
    random_routes("route, staircases", scaled(scale, 100), make_staircases, 3, 26, 1);
    random_routes("route, many equal routes", scaled(scale, 400), make_lattice, 3, 26, 1);
    random_routes("route, large boards, equal routes", scaled(scale, 6), make_lattice, 50, 63, 1);
    random_routes("route, mirrored boards", scaled(scale, 200), make_mirrored, 3, 24, 1);
    random_routes("route, boards cut in two", scaled(scale, 150), make_divided, 2, 24, 1);
    group_thin_routes();
    group_enclosed_routes();
    group_pinched_routes();
    group_tied_routes();
}

/* ---------- groups: refusals ---------- */

static const size_t sides[] = {0,          1,           2,           7,           62,          63,           64,           65,
                               127,        128,         255,         256,         257,         319,          65535,        65536,
                               65599,      0x7fffffffu, 0x80000000u, 0xffffffffu, 0x100000000u, 0x100000003u, 0x8000000000000000u,
                               0x8000000000000001u, SIZE_MAX / 3, SIZE_MAX - 1, SIZE_MAX};
enum { SIDES = sizeof sides / sizeof *sides };

static void compare_both(const struct route_case *c)
{
    struct leg_case leg = {c->cells, c->cells_len, c->width, c->height, c->sx, c->sy, c->gx, c->gy};
    compare_sight(&leg);
    compare_route(c);
}

/* Sides at their bounds and far beyond; cell counts right, wrapped round, and off by one. */
static void refused_sides(void)
{
    for (size_t i = 0; i < SIDES; i++)
        for (size_t j = 0; j < SIDES; j++) {
            size_t product = sides[i] * sides[j];
            size_t counts[] = {0, 1, product, product - 1, product + 1, 63 * 63, 64 * 63, 64};
            for (size_t k = 0; k < sizeof counts / sizeof *counts; k++) {
                if (counts[k] > sizeof cells)
                    continue;
                memset(cells, 0, sizeof cells);
                size_t at = below(counts[k]);
                if (k % 2)
                    cells[at] = any_byte();
                struct route_case c = {cells, counts[k], sides[i], sides[j], 0, 0, 0, 0, 4096, 4096, 4096, 4096, 10};
                compare_both(&c);
                c.gx = SIZE_MAX, c.g_len = 0;
                compare_both(&c);
            }
        }
}

static void refused_cells(void)
{
    static const uint8_t bytes[] = {2, 3, 4, 16, 127, 128, 129, 254, 255};
    static const size_t sizes[][2] = {{1, 1}, {2, 1}, {1, 9}, {3, 3}, {8, 8}, {7, 9}, {63, 1}, {63, 63}};
    for (size_t k = 0; k < sizeof sizes / sizeof *sizes; k++)
        for (size_t b = 0; b < sizeof bytes; b++) {
            size_t width = sizes[k][0], height = sizes[k][1], last = width * height - 1;
            size_t places[] = {0, last, last / 2, below(last + 1), last > 0 ? last - 1 : 0, last < 8 ? 0 : 7, last < 8 ? 0 : 8};
            for (size_t p = 0; p < sizeof places / sizeof *places; p++) {
                board_scattered(&dice, cells, width, height, 20);
                cells[places[p]] = bytes[b];
                struct route_case c = route_on(cells, width, height);
                compare_both(&c);
                size_t at = below(last + 1);
                cells[at] = bytes[below(sizeof bytes)];
                c.sx = width + 1;
                compare_both(&c);
                cells[last + 1] = 9;
                c.cells_len++;
                compare_both(&c);
            }
        }
}

static void refused_vertices(void)
{
    static const size_t sizes[][2] = {{1, 1}, {1, 5}, {5, 1}, {4, 6}, {63, 63}, {63, 2}};
    for (size_t k = 0; k < sizeof sizes / sizeof *sizes; k++) {
        size_t width = sizes[k][0], height = sizes[k][1];
        memset(cells, 0, width * height);
        size_t xs[] = {0, width, width + 1, SIZE_MAX, 0x100000000u, 0x100000000u + width, 256, SIZE_MAX - width};
        size_t ys[] = {0, height, height + 1, SIZE_MAX, 0x100000000u, 65536 + height, 256, (size_t)1 << 63};
        for (size_t n = 0; n < 8 * 8 * 8 * 8; n++) {
            struct route_case c = route_on(cells, width, height);
            c.sx = xs[n % 8], c.sy = ys[n / 8 % 8], c.gx = xs[n / 64 % 8], c.gy = ys[n / 512];
            if (width == 63 && n % 7)
                continue;
            if (n % 3 == 0)
                c.marks_len = 0;
            if (n % 5 == 0)
                c.legs_len = 0;
            compare_both(&c);
        }
    }
}

static void refused_slices(void)
{
    static const size_t sizes[][2] = {{1, 1}, {3, 2}, {9, 7}, {63, 1}, {63, 63}};
    for (size_t k = 0; k < sizeof sizes / sizeof *sizes; k++) {
        size_t width = sizes[k][0], height = sizes[k][1], vertices = (width + 1) * (height + 1);
        size_t lengths[] = {vertices, vertices - 1, 0, vertices + 1, width * height, 1};
        board_scattered(&dice, cells, width, height, 15);
        for (size_t n = 0; n < 6 * 6 * 6 * 6; n++) {
            if (width * height > 60 && n % 5)
                continue;
            struct route_case c = route_on(cells, width, height);
            random_ends(&c);
            if (width * height > 1000)
                c.gx = c.sx, c.gy = c.sy;
            c.g_len = lengths[n % 6], c.parents_len = lengths[n / 6 % 6], c.marks_len = lengths[n / 36 % 6];
            c.legs_len = lengths[n / 216];
            c.path_len = n % 4 ? below(vertices) : 0;
            compare_route(&c);
        }
    }
}

/* Several things wrong at once: the lowest number wins. */
static void refused_mixtures(void)
{
    for (size_t k = 0; k < scaled(scale, 15000); k++) {
        size_t width = 1 + below(5), height = 1 + below(5), vertices = (width + 1) * (height + 1);
        board_scattered(&dice, cells, width, height, below(50));
        struct route_case c = route_on(cells, width, height);
        random_ends(&c);
        if (chance(10))
            c.width = sides[below(SIDES)];
        if (chance(10))
            c.height = sides[below(SIDES)];
        if (chance(10))
            c.cells_len = below(width * height + 3);
        size_t at = below(width * height);
        if (chance(15))
            cells[at] = any_byte();
        if (chance(10))
            c.sx = width + below(3);
        if (chance(10))
            c.sy = height + below(3);
        if (chance(10))
            c.gx = width + below(3);
        if (chance(10))
            c.gy = height + below(3);
        if (chance(10))
            c.g_len = below(vertices + 3);
        if (chance(10))
            c.parents_len = below(vertices + 3);
        if (chance(10))
            c.marks_len = below(vertices + 3);
        if (chance(10))
            c.legs_len = below(vertices + 3);
        if (chance(50))
            c.path_len = below(6);
        compare_both(&c);
    }
}

static void group_refusals(void)
{
    begin_group("refusals 1 and 2 at their bounds");
    refused_sides();
    end_group();
    begin_group("refusal 3 at its bounds");
    refused_cells();
    end_group();
    begin_group("refusals 4 and 5 at their bounds");
    refused_vertices();
    end_group();
    begin_group("refusals 6 and 7 at their bounds");
    refused_slices();
    end_group();
    begin_group("refusals 1 to 7 mixed");
    refused_mixtures();
    end_group();
}

/* ---------- groups: jobs ---------- */

struct job_row {
    const char *hex;
    uint64_t number, place, second;
};

/* Written by hand from the document's table; a 4 by 3 board unless the row is about the board. */
#define B43 "0100040300000000"
static const struct job_row job_rows[] = {
    {"", 12, 0, 0},
    {"01", 11, 0, 0},
    {"01000403000000", 11, 0, 0},
    {B43 "00", 11, 0, 0},
    {"ff00000000000000 ff", 11, 0, 0},
    {B43, 0, 0, 0},
    /* 14: board side outside 1..63 */
    {"0100000000000000", 14, 0, 0},
    {"0100000100000000", 14, 0, 0},
    {"0100010000000000", 14, 0, 0},
    {"0100010100000000", 0, 0, 0},
    {"01003f3f00000000", 0, 0, 0},
    {"0100403f00000000", 14, 0, 0},
    {"01003f4000000000", 14, 0, 0},
    {"0100ff0100000000", 14, 0, 0},
    {"010001ff00000000", 14, 0, 0},
    /* 23: an unused byte of the board not 0, the lowest of several, also before 14 */
    {"0101040300000000", 23, 0, 1},
    {"0100040301000000", 23, 0, 4},
    {"0100040300800000", 23, 0, 5},
    {"0100040300000100", 23, 0, 6},
    {"01000403000000ff", 23, 0, 7},
    {"0101000000000000", 23, 0, 1},
    {"0100040301010101", 23, 0, 4},
    {"0101040300000001", 23, 0, 1},
    {"01000000000000ff", 23, 0, 7},
    /* 13: unknown type, whatever its other bytes, also as record 0, where 12 would hold too */
    {"0000040300000000", 13, 0, 0},
    {"0400040300000000", 13, 0, 0},
    {"ff00040300000000", 13, 0, 0},
    {B43 "0000000000000000", 13, 1, 0},
    {B43 "0400000000000000", 13, 1, 0},
    {B43 "8100040300000000", 13, 1, 0},
    {B43 "ff00000000000000", 13, 1, 0},
    {"0001040300000001", 13, 0, 0},
    {B43 "04ffffffffffffff", 13, 1, 0},
    /* 12: record 0 is not a board, or a later one is; 13 and 23 come before, 14 after */
    {"0200000001010000", 12, 0, 0},
    {"0301000000000000", 12, 0, 0},
    {"0201000001010000", 23, 0, 1},
    {"0301000000000001", 23, 0, 7},
    {"0300ffffffff0000", 12, 0, 0},
    {"0200000000000000", 12, 0, 0},
    {B43 B43, 12, 1, 0},
    {B43 "0100000000000000", 12, 1, 0},
    {B43 "0101040300000000", 23, 1, 1},
    {B43 "0100ffff00000000", 12, 1, 0},
    {B43 "0301000000000000" B43, 12, 2, 0},
    {B43 "0200000001010000 0301000000000000" B43, 12, 3, 0},
    /* 15: keepout empty or beyond the board; edges are touched */
    {B43 "0200000001010000", 0, 0, 0},
    {B43 "0200000004030000", 0, 0, 0},
    {B43 "0200030204030000", 0, 0, 0},
    {B43 "0200000005030000", 15, 1, 0},
    {B43 "0200000004040000", 15, 1, 0},
    {B43 "0200000000010000", 15, 1, 0},
    {B43 "0200000001000000", 15, 1, 0},
    {B43 "0200000000000000", 15, 1, 0},
    {B43 "0200020102030000", 15, 1, 0},
    {B43 "0200020103010000", 15, 1, 0},
    {B43 "0200030002010000", 15, 1, 0},
    {B43 "0200000201010000", 15, 1, 0},
    {B43 "0200040304030000", 15, 1, 0},
    {B43 "0200040005010000", 15, 1, 0},
    {B43 "02000000ff010000", 15, 1, 0},
    {B43 "0200000001ff0000", 15, 1, 0},
    {B43 "0200ffff00000000", 15, 1, 0},
    {B43 "0200000001010000 0200000001010000 0200000004030000", 0, 0, 0},
    {B43 "0200000001010000 0200000005010000", 15, 2, 0},
    /* 23: unused bytes of a keepout, also before 15 and 18 */
    {B43 "0201000001010000", 23, 1, 1},
    {B43 "0200000001010100", 23, 1, 6},
    {B43 "0200000001010001", 23, 1, 7},
    {B43 "02ff000000000000", 23, 1, 1},
    {B43 "0301000000000000 0201000001010000", 23, 2, 1},
    {B43 "0201000001010101", 23, 1, 1},
    {B43 "0200000001010101", 23, 1, 6},
    /* 18: keepout after a net, before 15 */
    {B43 "0301000000000000 0200000001010000", 18, 2, 0},
    {B43 "0301000000000000 0200000000000000", 18, 2, 0},
    {B43 "0200000001010000 0301000000000000 0302000000000000 0200000001010000", 18, 4, 0},
    /* 16: net end off the board */
    {B43 "0301000004030000", 0, 0, 0},
    {B43 "0301040300000000", 0, 0, 0},
    {B43 "0301050000000000", 16, 1, 0},
    {B43 "0301000400000000", 16, 1, 0},
    {B43 "0301000005000000", 16, 1, 0},
    {B43 "0301000000040000", 16, 1, 0},
    {B43 "0301ffffffff0000", 16, 1, 0},
    {B43 "0301000000000000 0302000000ff0000", 16, 2, 0},
    /* 17: net number not above the one before, before 16 */
    {B43 "0300000000000000", 17, 1, 0},
    {B43 "0300ffff00000000", 17, 1, 0},
    {B43 "0301000000000000 0301000000000000", 17, 2, 0},
    {B43 "0302000000000000 0301000000000000", 17, 2, 0},
    {B43 "0302000000000000 0300000000000000", 17, 2, 0},
    {B43 "0302000000000000 0303000000000000", 0, 0, 0},
    {B43 "03ff000000000000", 0, 0, 0},
    {B43 "03ff000000000000 03ff000000000000", 17, 2, 0},
    {B43 "03ff000000000000 0300000000000000", 17, 2, 0},
    {B43 "03fe000000000000 03ff000000000000", 0, 0, 0},
    {B43 "0301000000000000 0301050000000000", 17, 2, 0},
    /* 23: unused bytes of a net, also before 17 and 16 */
    {B43 "0301000000000100", 23, 1, 6},
    {B43 "0301000000000001", 23, 1, 7},
    {B43 "0300ff0000000001", 23, 1, 7},
    {B43 "0301000000000101", 23, 1, 6},
    /* records in order: the first record that is refused counts, whatever its number */
    {B43 "0301050000000000 0400000000000000", 16, 1, 0},
    {"0100404000000000 0400000000000000", 14, 0, 0},
    {B43 "0200000000000000" B43, 15, 1, 0},
    {B43 "0301000000000001 0302000000000100", 23, 1, 7},
    {B43 "0301000000000001 0400000000000000", 23, 1, 7},
};

static void expect_job(const struct job *job, uint64_t number, uint64_t place, uint64_t second)
{
    struct wexxolin_board b = compare_job(job);
    count(3);
    if (b.number == number && b.place == place && b.second == second)
        return;
    tell("the document gives %llu at %llu %llu, the second router %llu at %llu %llu", (unsigned long long)number,
         (unsigned long long)place, (unsigned long long)second, (unsigned long long)b.number, (unsigned long long)b.place,
         (unsigned long long)b.second);
    tell_job(job->bytes, job->length);
    end_of_telling();
}

static void group_job_table(void)
{
    static struct job job;
    begin_group("job reader, table by hand");
    for (size_t i = 0; i < sizeof job_rows / sizeof *job_rows; i++) {
        job.length = 0;
        job_hex(&job, job_rows[i].hex);
        expect_job(&job, job_rows[i].number, job_rows[i].place, job_rows[i].second);
    }
    job_full(&dice, &job, 63, 63);
    expect_job(&job, 0, 0, 0);
    static const size_t lengths[] = {8193, 8195, 8199, 8200, 8208, 16384, 65536, 65544, 69999};
    for (size_t i = 0; i < sizeof lengths / sizeof *lengths; i++) {
        job.length = lengths[i];
        expect_job(&job, 10, 0, 0);
    }
    for (job.length = 8185; job.length < 8192; job.length++)
        expect_job(&job, 11, 0, 0);
    job.length = 8192;
    job.bytes[8191] = 1;
    expect_job(&job, 23, 1023, 7);
    job.bytes[8191] = 0;
    job.bytes[8192 - 8 + 1] = 254;
    expect_job(&job, 17, 1023, 0);
    job.bytes[8192 - 8 + 1] = 255;
    job.bytes[8192 - 8 + 4] = 64;
    expect_job(&job, 16, 1023, 0);
    memset(job.bytes, 0, sizeof job.bytes);
    job.length = 8192;
    expect_job(&job, 13, 0, 0);
    end_group();
}

static void group_random_jobs(void)
{
    static struct job job, damaged;
    begin_group("job reader, random jobs");
    for (size_t k = 0; k < scaled(scale, 1500); k++) {
        size_t width = 1 + below(63), height = 1 + below(63);
        if (k % 100 == 7)
            job_full(&dice, &job, width, height);
        else if (k % 20 == 3)
            job_random(&dice, &job, 300, 255, 63);
        else
            job_random(&dice, &job, 8, 6, k % 3 ? 8 : 63);
        compare_job(&job);
    }
    end_group();
    begin_group("job reader, damaged jobs");
    for (size_t k = 0; k < scaled(scale, 12000); k++) {
        if (k % 40 == 3)
            job_random(&dice, &job, 200, 255, 63);
        else
            job_random(&dice, &job, 4, 4, 8);
        damaged = job;
        job_damage(&dice, &damaged);
        compare_job(&damaged);
    }
    end_group();
    begin_group("lines of random and damaged jobs");
    for (size_t k = 0; k < scaled(scale, 400); k++) {
        job_random(&dice, &job, 12, 8, k % 20 == 0 ? 30 : 10);
        if (k % 3 == 0)
            job_damage(&dice, &job);
        compare_lines(&job, NULL);
    }
    end_group();
}

/* ---------- all ---------- */

static void all_but_routes(uint64_t seed)
{
    dice = dice_of(seed);
    group_document();
    group_differences();
    group_between();
    group_refusals();
    group_job_table();
    group_random_jobs();
    group_small_sights();
    group_single_cells();
    group_near_sights();
    group_random_sights();
    group_pinched_sights();
}

/* Dice of its own, so that the cases are the same whether the two parts run one after the other or at once. */
static void all_routes(uint64_t seed)
{
    dice = dice_of(seed + 1);
    group_small_routes();
    group_random_routes();
}

int main(int argc, char **argv)
{
    uint64_t seed = argc > 2 ? strtoull(argv[2], NULL, 0) : 1;
    scale = scale_of(argc > 1 ? argv[1] : "1");
    if (argc > 3)
        difference_file = argv[3];
    if (scale.times == 0) {
        fprintf(stderr, "usage: agree [SCALE [SEED [FILE [PART]]]], SCALE at least 1\n");
        return 2;
    }
    const char *part = argc > 4 ? argv[4] : "all";
    printf("scale %zu/%zu, seed %llu, %s\n", scale.times, scale.share, (unsigned long long)seed, part);
    open_rooms();
    if (strcmp(part, "routes") != 0)
        all_but_routes(seed);
    if (strcmp(part, "others") != 0)
        all_routes(seed);
    printf("%-34s %10llu calls compared, %12llu numbers and entries\n", "no difference:", (unsigned long long)all_calls,
           (unsigned long long)all_entries);
    return 0;
}
