/* A fast, ordinary router: the yardstick for the proved one. Same results as document 01 asks, by the usual means. */
#ifndef FAST_H
#define FAST_H

#include "../include/wexxolin.h"

/* The largest side of a board: 63, 127, 255 or 511, with a wexxolin_vertex that has room for its vertices' numbers. */
#ifndef LARGEST_SIDE
#define LARGEST_SIDE 63
#endif

struct wexxolin_sight fast_sight(const uint8_t *cells, size_t cells_len, size_t width, size_t height,
                                 size_t ax, size_t ay, size_t bx, size_t by);

/* The length in units of a leg whose differences are at most LARGEST_SIDE in size. */
uint64_t fast_units(int dx, int dy);

struct wexxolin_route fast_route(const uint8_t *cells, size_t cells_len, size_t width, size_t height,
                                 size_t sx, size_t sy, size_t gx, size_t gy,
                                 uint64_t *g, size_t g_len, wexxolin_vertex *parents, size_t parents_len,
                                 uint8_t *marks, size_t marks_len, wexxolin_vertex *legs, size_t legs_len,
                                 wexxolin_vertex *path, size_t path_len);

#endif
