/* None means none at any angle: floods boards by legs of any length with the second router's sight, and compares where they lead with
   the number that the route call behind include/wexxolin.h hands back.

       angles [SCALE [SEED]]

   SCALE 1 is the everyday run: every start and goal of every small board, then larger boards thrown with dice. The same SEED gives the
   same boards. The first difference ends the run with 1 and is described on standard error. */
#include "boards.h"
#include "second/second.h"

#include <stdio.h>
#include <stdlib.h>
#include <string.h>

enum { LARGEST = 24, MOST_CELLS = LARGEST * LARGEST, MOST_VERTICES = (LARGEST + 1) * (LARGEST + 1) };

static struct dice dice;
static struct scale scale = {1, 1};

static size_t below(size_t count) { return dice_below(&dice, count); }

/* ---------- counting and telling ---------- */

static const char *group_name;
static uint64_t group_led, group_none;

static void begin_group(const char *name)
{
    group_name = name;
    group_led = group_none = 0;
}

static void end_group(void)
{
    printf("%-34s %10llu requests compared, of them no path %9llu\n", group_name, (unsigned long long)(group_led + group_none),
           (unsigned long long)group_none);
    fflush(stdout);
}

struct request {
    const uint8_t *cells;
    size_t width, height, sx, sy, gx, gy, path_len;
};

static void end_of_telling(const struct request *r, uint64_t number, int led)
{
    fprintf(stderr, "DIFFERENCE in group '%s'\n", group_name);
    fprintf(stderr, "route (%zu, %zu) to (%zu, %zu), a path slice of %zu: %llu, and legs with sight %s there\n", r->sx, r->sy, r->gx, r->gy,
            r->path_len, (unsigned long long)number, led ? "lead" : "do not lead");
    for (size_t y = 0; y < r->height; y++) {
        for (size_t x = 0; x < r->width; x++)
            fputc(r->cells[y * r->width + x] ? '#' : '.', stderr);
        fputc('\n', stderr);
    }
    exit(1);
}

/* ---------- one request ---------- */

/* Where legs lead, 0; if the path slice has no room, 7; and never 8. Where they do not, 8. */
static uint64_t expected(const struct request *r, int led)
{
    if (!led)
        return 8;
    return r->path_len == 0 ? 7 : 0;
}

/* A path slice has room for every path, or for none. */
static void compare(const struct request *r, int led)
{
    static uint64_t g[MOST_VERTICES];
    static wexxolin_vertex parents[MOST_VERTICES], legs[MOST_VERTICES], path[MOST_VERTICES];
    static uint8_t marks[MOST_VERTICES];
    size_t count = (r->width + 1) * (r->height + 1);
    uint64_t number = wexxolin_route(r->cells, r->width * r->height, r->width, r->height, r->sx, r->sy, r->gx, r->gy, g, count,
                                     parents, count, marks, count, legs, count, path, r->path_len).number;
    if (number != expected(r, led))
        end_of_telling(r, number, led);
    *(led ? &group_led : &group_none) += 1;
}

/* To the vertex with that number, where leads says whether legs lead there. */
static void compare_goal(struct request r, size_t goal, const uint8_t *leads)
{
    r.gx = goal % (r.width + 1), r.gy = goal / (r.width + 1);
    compare(&r, leads[goal]);
}

/* ---------- every small board ---------- */

static void all_goals(struct request r)
{
    uint8_t leads[MOST_VERTICES];
    size_t count = (r.width + 1) * (r.height + 1);
    second_lead(r.cells, r.width, r.height, r.sx, r.sy, leads);
    for (size_t goal = 0; goal < count; goal++)
        compare_goal(r, goal, leads);
}

/* A path slice of no entries on each fifth board. */
static void all_boards(size_t width, size_t height)
{
    uint8_t cells[MOST_CELLS];
    for (size_t pattern = 0; pattern < (size_t)1 << width * height; pattern++) {
        for (size_t i = 0; i < width * height; i++)
            cells[i] = pattern >> i & 1;
        for (size_t start = 0; start < (width + 1) * (height + 1); start++) {
            struct request r = {cells, width, height, start % (width + 1), start / (width + 1), 0, 0, pattern % 5 ? MOST_VERTICES : 0};
            all_goals(r);
        }
    }
}

/* All widths and heights whose boards, times their pairs of vertices, are few enough. */
static void group_small_boards(void)
{
    begin_group("every small board, start and goal");
    for (size_t width = 1; width <= 12; width++)
        for (size_t height = 1; height <= 12; height++) {
            size_t vertices = (width + 1) * (height + 1);
            if (width * height <= 20 && ((size_t)1 << width * height) * vertices * vertices <= scaled(scale, 1700000))
                all_boards(width, height);
        }
    end_group();
}

/* ---------- larger boards ---------- */

static void throw_board(uint8_t *cells, size_t width, size_t height)
{
    switch (below(7)) {
    case 0: board_scattered(&dice, cells, width, height, 10 + below(60)); break;
    case 1: board_keepouts(&dice, cells, width, height, 2 + below(14)); break;
    case 2: board_pairs(&dice, cells, width, height, 1 + below(width * height / 3 + 1)); break;
    case 3: board_staircases(&dice, cells, width, height); break;
    case 4: board_divided(&dice, cells, width, height); break;
    case 5: board_chequered(&dice, cells, width, height, below(40)); break;
    default: board_scattered(&dice, cells, width, height, 30 + below(25)); break;
    }
}

static void thrown_boards(const char *name, size_t boards, size_t least, size_t most, size_t goals)
{
    static uint8_t cells[MOST_CELLS], leads[MOST_VERTICES];
    begin_group(name);
    for (size_t k = 0; k < boards; k++) {
        size_t width = least + below(most - least + 1), height = least + below(most - least + 1);
        throw_board(cells, width, height);
        struct request r = {cells, width, height, below(width + 1), below(height + 1), 0, 0, k % 5 ? MOST_VERTICES : 0};
        second_lead(cells, width, height, r.sx, r.sy, leads);
        for (size_t i = 0; i < goals; i++)
            compare_goal(r, below((width + 1) * (height + 1)), leads);
    }
    end_group();
}

int main(int argc, char **argv)
{
    uint64_t seed = argc > 2 ? strtoull(argv[2], NULL, 0) : 1;
    scale = scale_of(argc > 1 ? argv[1] : "1");
    if (scale.times == 0) {
        fprintf(stderr, "usage: angles [SCALE [SEED]], SCALE at least 1\n");
        return 2;
    }
    dice = dice_of(seed + 2);
    group_small_boards();
    thrown_boards("thrown boards to 10 by 10", scaled(scale, 2000), 2, 10, 40);
    thrown_boards("thrown boards to 24 by 24", scaled(scale, 60), 11, LARGEST, 40);
    return 0;
}
