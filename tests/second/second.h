/* The second router: document 01 read as plainly as it can be, with no thought of speed.
   It shares the shapes of the answers with include/wexxolin.h and nothing else with the proved router. */
#ifndef SECOND_H
#define SECOND_H

#include "../../include/wexxolin.h"

struct wexxolin_sight second_sight(const uint8_t *cells, size_t cells_len, size_t width, size_t height,
                                   size_t ax, size_t ay, size_t bx, size_t by);

struct wexxolin_length second_length(int32_t dx, int32_t dy);
struct wexxolin_length second_length_between(size_t ax, size_t ay, size_t bx, size_t by);

struct wexxolin_direction second_direction(int32_t dx, int32_t dy);
struct wexxolin_direction second_direction_between(size_t ax, size_t ay, size_t bx, size_t by);

struct wexxolin_route second_route(const uint8_t *cells, size_t cells_len, size_t width, size_t height,
                                   size_t sx, size_t sy, size_t gx, size_t gy,
                                   uint64_t *g, size_t g_len, wexxolin_vertex *parents, size_t parents_len,
                                   uint8_t *marks, size_t marks_len, wexxolin_vertex *legs, size_t legs_len,
                                   wexxolin_vertex *path, size_t path_len);

/* Where "legs with sight, of any lengths, lead" from (sx, sy) (document 02, item 10), on a board and from a start that are accepted:
   writes for each vertex number 1 or 0. */
void second_lead(const uint8_t *cells, size_t width, size_t height, size_t sx, size_t sy, uint8_t *leads);

struct wexxolin_board second_board(const uint8_t *job, size_t job_len, uint8_t *board, size_t board_len);

struct wexxolin_net second_net(const uint8_t *job, size_t job_len, size_t index);

/* Bytes that grow as they are written; bytes is to be freed by the caller. Starts as all zero. */
struct second_text {
    char *bytes;
    size_t length, room;
};

/* Adds what the route program prints for a job. */
void second_lines(const uint8_t *job, size_t job_len, struct second_text *text);

/* Adds characters as printf would make them; at most 127 of them. */
void second_print(struct second_text *text, const char *format, ...);

#endif
