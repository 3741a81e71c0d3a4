/* The second printer: document 01's sentences on the route program's lines, read as plainly as they can be.
   It shares the shape of the answer with include/wexxolin.h and nothing else with the proved call. */
#ifndef SECOND_PRINTER_H
#define SECOND_PRINTER_H

#include "../../include/wexxolin.h"

struct wexxolin_line second_line(uint64_t net, uint64_t number, uint64_t place, uint64_t second, uint64_t units,
                                 uint64_t expansions, uint64_t tests, size_t width, const wexxolin_vertex *path,
                                 size_t path_len, uint8_t *out, size_t out_len);

#endif
