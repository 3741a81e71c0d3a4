/* The second packer: document 02's item 7 read as plainly as it can be, with no thought of speed.
   It shares the shapes of the answers with include/wexxolin.h and nothing else with the proved calls. */
#ifndef SECOND_PACKED_H
#define SECOND_PACKED_H

#include "../../include/wexxolin.h"

struct wexxolin_pack second_unpack(const uint8_t *packed, size_t packed_len, size_t width, size_t height,
                                   uint8_t *cells, size_t cells_len);

struct wexxolin_pack second_pack(const uint8_t *cells, size_t cells_len, size_t width, size_t height,
                                 uint8_t *packed, size_t packed_len);

struct wexxolin_count_packed second_count_packed(const uint8_t *packed, size_t packed_len, size_t width, size_t height);

#endif
