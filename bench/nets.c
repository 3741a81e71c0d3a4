/* Routes many nets through wexxolin_route, so that a counter outside can say what a net and an expansion cost.

       nets WIDTH HEIGHT PERCENT ENDS NETS SEED [ROUTED]

   Makes NETS boards with PERCENT in 100 cells blocked and a net on each, from corner to corner (ENDS corners), between random
   vertices (ENDS random), or from a random vertex to itself, so that nothing is expanded (ENDS equal). Then it routes the first
   ROUTED of them (all if not given). The making costs the same whatever
   ROUTED is, so the difference of two runs is the price of the nets between. Prints sums that any right router must reach. */
#include "../include/wexxolin.h"
#include "../tests/boards.h"

#include <stdio.h>
#include <stdlib.h>
#include <string.h>

#ifndef LARGEST_SIDE
#define LARGEST_SIDE 63
#endif

enum { MOST_VERTICES = (LARGEST_SIDE + 1) * (LARGEST_SIDE + 1) };

struct ends {
    size_t sx, sy, gx, gy;
};

int main(int argc, char **argv)
{
    if (argc < 7) {
        fprintf(stderr, "usage: nets WIDTH HEIGHT PERCENT corners|random|equal NETS SEED [ROUTED]\n");
        return 2;
    }
    size_t width = strtoul(argv[1], NULL, 10), height = strtoul(argv[2], NULL, 10), percent = strtoul(argv[3], NULL, 10);
    size_t nets = strtoul(argv[5], NULL, 10), routed = argc > 7 ? strtoul(argv[7], NULL, 10) : nets;
    int corners = strcmp(argv[4], "corners") == 0, equal = strcmp(argv[4], "equal") == 0;
    struct dice dice = dice_of(strtoull(argv[6], NULL, 10));
    if (width < 1 || width > LARGEST_SIDE || height < 1 || height > LARGEST_SIDE || routed > nets)
        return 2;

    uint8_t *cells = malloc(nets * width * height);
    struct ends *ends = malloc(nets * sizeof *ends);
    for (size_t k = 0; k < nets; k++) {
        struct ends *e = ends + k;
        board_scattered(&dice, cells + k * width * height, width, height, percent);
        e->sx = dice_below(&dice, width + 1), e->sy = dice_below(&dice, height + 1);
        e->gx = dice_below(&dice, width + 1), e->gy = dice_below(&dice, height + 1);
        if (equal)
            e->gx = e->sx, e->gy = e->sy;
        if (corners) {
            e->sx = e->sy = 0, e->gx = width, e->gy = height;
            cells[k * width * height] = cells[(k + 1) * width * height - 1] = 0; /* else the corner could not be left */
        }
    }

    static uint64_t g[MOST_VERTICES];
    static wexxolin_vertex parents[MOST_VERTICES], legs[MOST_VERTICES], path[MOST_VERTICES];
    static uint8_t marks[MOST_VERTICES];
    unsigned long long paths = 0, expansions = 0, tests = 0, units = 0, vertices = 0;
    for (size_t k = 0; k < routed; k++) {
        struct wexxolin_route r =
            wexxolin_route(cells + k * width * height, width * height, width, height, ends[k].sx, ends[k].sy, ends[k].gx,
                           ends[k].gy, g, MOST_VERTICES, parents, MOST_VERTICES, marks, MOST_VERTICES, legs, MOST_VERTICES,
                           path, MOST_VERTICES);
        paths += r.number == 0;
        expansions += r.expansions;
        tests += r.tests;
        units += r.units;
        vertices += r.vertices;
    }
    printf("nets %zu expansions %llu tests %llu paths %llu vertices %llu units %llu\n", routed, expansions, tests, paths, vertices,
           units);
    free(cells);
    free(ends);
    return 0;
}
