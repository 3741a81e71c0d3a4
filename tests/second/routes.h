/* The second reader and writer of route files: document 02's item 1 read as plainly as it can be, with no thought of speed.
   It shares the shapes of the answers with include/wexxolin.h and nothing else with the proved calls. */
#ifndef SECOND_ROUTES_H
#define SECOND_ROUTES_H

#include "../../include/wexxolin.h"

struct wexxolin_read_routes second_read_routes(const uint8_t *file, size_t file_len, uint8_t *nets, size_t nets_len,
                                               size_t *counts, size_t counts_len, uint8_t *xs, size_t xs_len,
                                               uint8_t *ys, size_t ys_len);

struct wexxolin_write_routes second_write_routes(const uint8_t *nets, size_t nets_len, const size_t *counts, size_t counts_len,
                                                 const uint8_t *xs, size_t xs_len, const uint8_t *ys, size_t ys_len,
                                                 uint8_t *file, size_t file_len);

struct wexxolin_path_points second_path_points(const wexxolin_vertex *path, size_t path_len, size_t width,
                                               uint8_t *xs, size_t xs_len, uint8_t *ys, size_t ys_len);

#endif
