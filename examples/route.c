/* Routes one trace on a small board through wexxolin.h and prints it.

   The board is written as it looks: a line of text for each row of cells, '.' where copper may go and '#' where it may not
   (a component, a hole, another layer's keepout). A trace runs from cell corner to cell corner; (0, 0) is the upper left
   corner of the board, x grows to the right and y downward. Nothing may leave the board.

       cc -I include examples/route.c target/libwexxolin.a -o route && ./route */
#include "wexxolin.h"

#include <stdio.h>

enum { WIDTH = 16, HEIGHT = 9, VERTICES = (WIDTH + 1) * (HEIGHT + 1) };

static const char *const rows[HEIGHT] = {
    "................",
    "..####....##....",
    "..####....##....",
    "..####....##..#.",
    "..........##..#.",
    "....##........#.",
    "....##...######.",
    "....##..........",
    "................",
};

int main(void)
{
    /* The router wants one byte a cell, row by row: 0 free, 1 blocked. */
    uint8_t cells[WIDTH * HEIGHT];
    for (int y = 0; y < HEIGHT; y++)
        for (int x = 0; x < WIDTH; x++)
            cells[y * WIDTH + x] = rows[y][x] == '#';

    /* It works in memory that we lend it: an entry for each cell corner, and room for the trace. */
    static uint64_t g[VERTICES];
    static wexxolin_vertex parents[VERTICES], legs[VERTICES], path[VERTICES];
    static uint8_t marks[VERTICES];

    size_t from_x = 1, from_y = 2, to_x = 15, to_y = 7;
    wexxolin_route_answer route = wexxolin_route(cells, sizeof cells, WIDTH, HEIGHT, from_x, from_y, to_x, to_y, g, VERTICES,
                                                 parents, VERTICES, marks, VERTICES, legs, VERTICES, path, VERTICES);

    printf("from %zu,%zu to %zu,%zu\n", from_x, from_y, to_x, to_y);
    if (route.number == WEXXOLIN_NO_PATH) {
        printf("no path, after looking at %llu corners\n", (unsigned long long)route.expansions);
        return 0;
    }
    if (route.number != WEXXOLIN_DONE) { /* the board or the ends were not as the router wants them */
        printf("refused %llu at %llu: %s\n", (unsigned long long)route.number, (unsigned long long)route.place,
               wexxolin_text(route.number));
        return 1;
    }

    /* A length in units is exact: 1,048,576 units to a cell, each leg rounded down by less than one unit. */
    printf("length %.6f cells (%llu units) in %llu legs\n", route.cells, (unsigned long long)route.units,
           (unsigned long long)route.legs);

    /* The trace's corners are numbered row by row, WIDTH + 1 to a row. Each leg between two of them is a straight piece of
       copper; its direction says how far it goes sideways and downward for each cell of its length. */
    for (size_t i = 1; i < route.vertices; i++) {
        size_t ax = path[i - 1] % (WIDTH + 1), ay = path[i - 1] / (WIDTH + 1);
        size_t bx = path[i] % (WIDTH + 1), by = path[i] / (WIDTH + 1);
        wexxolin_length_answer length = wexxolin_length_between(ax, ay, bx, by);
        wexxolin_direction_answer direction = wexxolin_direction_between(ax, ay, bx, by);
        printf("leg %zu: %2zu,%zu to %2zu,%zu   %9.6f cells   direction %+.6f %+.6f\n", i, ax, ay, bx, by, length.cells, direction.x,
               direction.y);
    }

    /* Could it go straight? The same question that the layout tool asks while a trace is dragged; and what is in the way? */
    wexxolin_sight_answer sight = wexxolin_sight(cells, sizeof cells, WIDTH, HEIGHT, from_x, from_y, to_x, to_y);
    printf("the straight line from start to goal is %s", sight.sight ? "free" : "blocked");
    if (sight.kind == WEXXOLIN_CELL)
        printf(" by the cell %u,%u", (unsigned)sight.x, (unsigned)sight.y);
    if (sight.kind == WEXXOLIN_EDGE)
        printf(" by the edge from %u,%u to %u,%u", (unsigned)sight.x, (unsigned)sight.y, (unsigned)sight.x2, (unsigned)sight.y2);
    if (sight.kind == WEXXOLIN_VERTEX)
        printf(" at %u,%u, between two keepouts that touch", (unsigned)sight.x, (unsigned)sight.y);
    printf("\n");
    return 0;
}
