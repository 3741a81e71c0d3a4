/* The second check of the bureau's routes: document 02's item 4, with item 6's pinched vertices and item 8's slice, read as plainly as
   it can be, with no thought of speed.
   It shares the shapes of the answers with include/wexxolin.h and nothing else with the proved call. */
#ifndef SECOND_CHECK_H
#define SECOND_CHECK_H

#include "../../include/wexxolin.h"

struct wexxolin_check second_check(const uint8_t *job, size_t job_len, const uint8_t *routes, size_t routes_len,
                                   uint8_t *board, size_t board_len, uint64_t *g, size_t g_len,
                                   wexxolin_vertex *parents, size_t parents_len, uint8_t *marks, size_t marks_len,
                                   wexxolin_vertex *legs, size_t legs_len, uint64_t *units, size_t units_len,
                                   uint32_t *leg_counts, size_t leg_counts_len);

#endif
