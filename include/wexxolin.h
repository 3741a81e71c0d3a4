/* Wexxolin for C: line of sight, leg length and direction, the route search, the job reader, packed boards, route files and
   the check of the layout bureau's routes, as proved.

   Every call takes every input, and every struct begins with the number that it hands back, its place and its second place. A
   value is 0 where its row has none, so it is 0 with every refusal. The places are 0 but where it is said:

      0  accepted; for a route, a path found             11  length of a job or route file no multiple of 8
      1  width or height outside 1 to 63                 12  record 0 is not a board, or a later one is (place: record)
      2  number of cells is not width * height           13  unknown type (place: record)
      3  a cell byte is not 0 or 1 (place: its index)    14  board side outside 1 to 63 (place: record)
      4  first vertex off the board, or dx beyond 63     15  keepout empty or beyond the board (place: record)
      5  second vertex off the board, or dy beyond 63    16  net end off the board (place: record)
      6  g, parents, marks or legs too short             17  net number not above the one before (place: record)
      7  path too short (place: vertices needed)         18  keepout after a net (place: record)
      8  no path (a result: both counts are given)       19  board slice shorter than the cells
      9  direction of a leg with equal ends              20  no net with that index
     10  job longer than 8,192 bytes                     21  output slice too short
     22  a route file's record out of order (place: record)
     23  an unused byte of a record not 0 (place: record; second: byte)
     24  a net missing, or not in the job (place: net)    25  a path's first or last vertex wrong (place: net)
     26  a path's vertex off the board (place: net; second: the vertex's place in the path)
     27  a path's leg of zero length, or without sight, or that ends in a pinched vertex which is not the path's last
         (place: net; second: the place in the path of the leg's first vertex)
     28  no path claimed where one exists (place: net)
     29  wrong number of packed bytes                    30  a filling bit set (place: the first such byte's index)

   Cells come row by row, a byte each: 0 free, 1 blocked. Vertices are cell corners, (0, 0) to (width, height); y grows downward.
   Slices are passed as a pointer and a number of elements, which must be there; a pointer may be NULL where that number is 0.
   A slice that a call writes must not overlap another one.

   Threads: no call keeps anything between two calls, so any number may run at once, each with its own slices to write.
   Rounding: the caller's rounding mode must be to nearest; another one changes directions, and the sign of 0 cells.
   Stack: no call needs more than 60 KiB of stack (measured); none allocates memory.
   Machine: the archive is x86-64 of level v2 (SSE4.2, POPCNT), by the System V calling convention. It calls memset and memcpy,
   and nothing else. */
#ifndef WEXXOLIN_H
#define WEXXOLIN_H

#include <stddef.h>
#include <stdint.h>

#ifdef __cplusplus
extern "C" {
#endif

/* The version of this header, and the call that tells the library's; both are the same number where the two belong together. */
#define WEXXOLIN_MAJOR 2
#define WEXXOLIN_MINOR 2
#define WEXXOLIN_PATCH 0
#define WEXXOLIN_VERSION (WEXXOLIN_MAJOR * 10000 + WEXXOLIN_MINOR * 100 + WEXXOLIN_PATCH)
#define WEXXOLIN_VERSION_TEXT "2.2.0"
uint64_t wexxolin_version(void);

/* The library's name for each other call carries the call's edition, which rises when its parameters or its struct change: so an
   object that was built with an older header fails to link instead of reading wrong fields. In C the call keeps its name. */
#define WEXXOLIN_EDITION(symbol) __asm__(#symbol)

/* Sizes that always suffice. */
#define WEXXOLIN_MOST_SIDE 63
#define WEXXOLIN_MOST_CELLS (WEXXOLIN_MOST_SIDE * WEXXOLIN_MOST_SIDE)
#define WEXXOLIN_MOST_VERTICES ((WEXXOLIN_MOST_SIDE + 1) * (WEXXOLIN_MOST_SIDE + 1))
#define WEXXOLIN_MOST_PACKED ((WEXXOLIN_MOST_SIDE + 7) / 8 * WEXXOLIN_MOST_SIDE)
#define WEXXOLIN_RECORD_BYTES 8
#define WEXXOLIN_MOST_JOB_BYTES 8192
#define WEXXOLIN_UNITS_PER_CELL 1048576

/* A name for each number that a call hands back. */
enum wexxolin_number {
    WEXXOLIN_DONE = 0,
    WEXXOLIN_BAD_SIDES = 1,
    WEXXOLIN_BAD_CELL_COUNT = 2,
    WEXXOLIN_BAD_CELL = 3,
    WEXXOLIN_BAD_FIRST = 4,
    WEXXOLIN_BAD_SECOND = 5,
    WEXXOLIN_SHORT_WORK = 6,
    WEXXOLIN_SHORT_PATH = 7,
    WEXXOLIN_NO_PATH = 8,
    WEXXOLIN_NO_DIRECTION = 9,
    WEXXOLIN_LONG_JOB = 10,
    WEXXOLIN_CUT_JOB = 11,
    WEXXOLIN_BOARD_PLACE = 12,
    WEXXOLIN_UNKNOWN_TYPE = 13,
    WEXXOLIN_BAD_BOARD = 14,
    WEXXOLIN_BAD_KEEPOUT = 15,
    WEXXOLIN_BAD_NET_END = 16,
    WEXXOLIN_BAD_NET_NUMBER = 17,
    WEXXOLIN_LATE_KEEPOUT = 18,
    WEXXOLIN_SHORT_BOARD = 19,
    WEXXOLIN_NO_NET = 20,
    WEXXOLIN_SHORT_OUTPUT = 21,
    WEXXOLIN_ROUTE_ORDER = 22,
    WEXXOLIN_UNUSED_BYTE = 23,
    WEXXOLIN_ODD_NET = 24,
    WEXXOLIN_WRONG_END = 25,
    WEXXOLIN_OFF_BOARD = 26,
    WEXXOLIN_WRONG_LEG = 27,
    WEXXOLIN_PATH_EXISTS = 28,
    WEXXOLIN_PACKED_LENGTH = 29,
    WEXXOLIN_FILLING_BIT = 30
};

/* What a number means; NULL if no call hands it back. It is code of this header, no part of the proved library. */
static inline const char *wexxolin_text(uint64_t number)
{
    switch (number) {
    case WEXXOLIN_DONE: return "accepted; for a route, a path found";
    case WEXXOLIN_BAD_SIDES: return "width or height outside 1 to 63";
    case WEXXOLIN_BAD_CELL_COUNT: return "the number of cells is not width times height";
    case WEXXOLIN_BAD_CELL: return "a cell byte is not 0 or 1";
    case WEXXOLIN_BAD_FIRST: return "the first vertex is off the board, or dx beyond 63";
    case WEXXOLIN_BAD_SECOND: return "the second vertex is off the board, or dy beyond 63";
    case WEXXOLIN_SHORT_WORK: return "g, parents, marks or legs too short";
    case WEXXOLIN_SHORT_PATH: return "path too short";
    case WEXXOLIN_NO_PATH: return "no path";
    case WEXXOLIN_NO_DIRECTION: return "a leg with equal ends has no direction";
    case WEXXOLIN_LONG_JOB: return "the job is longer than 8,192 bytes";
    case WEXXOLIN_CUT_JOB: return "the length of a job or route file is no multiple of 8";
    case WEXXOLIN_BOARD_PLACE: return "record 0 is not a board, or a later one is";
    case WEXXOLIN_UNKNOWN_TYPE: return "a record of unknown type";
    case WEXXOLIN_BAD_BOARD: return "a board side outside 1 to 63";
    case WEXXOLIN_BAD_KEEPOUT: return "a keepout that is empty or reaches beyond the board";
    case WEXXOLIN_BAD_NET_END: return "a net end off the board";
    case WEXXOLIN_BAD_NET_NUMBER: return "a net number not above the one before";
    case WEXXOLIN_LATE_KEEPOUT: return "a keepout after a net";
    case WEXXOLIN_SHORT_BOARD: return "the board slice is shorter than the cells";
    case WEXXOLIN_NO_NET: return "no net with that index";
    case WEXXOLIN_SHORT_OUTPUT: return "the output slice is too short";
    case WEXXOLIN_ROUTE_ORDER: return "a route file's record out of order";
    case WEXXOLIN_UNUSED_BYTE: return "an unused byte of a record is not 0";
    case WEXXOLIN_ODD_NET: return "a net is missing, or not in the job";
    case WEXXOLIN_WRONG_END: return "a path does not begin at its net's start and end at its goal";
    case WEXXOLIN_OFF_BOARD: return "a path's vertex is off the board";
    case WEXXOLIN_WRONG_LEG: return "a path's leg has zero length, or no sight, or ends in a pinched vertex that is not the last";
    case WEXXOLIN_PATH_EXISTS: return "no path is claimed where one exists";
    case WEXXOLIN_PACKED_LENGTH: return "the number of packed bytes is not that of the board";
    case WEXXOLIN_FILLING_BIT: return "a filling bit of a packed row is set";
    default: return NULL;
    }
}

/* A vertex number as the slices hold it: y * (width + 1) + x. Legs are held in the same type. */
typedef uint16_t wexxolin_vertex;

/* Does the leg from (ax, ay) to (bx, by) have sight? sight is 1 or 0. Where it is 0, kind and what follows name the first thing
   that stops the leg, counted from (ax, ay): a blocked cell (x, y); a unit edge with blocked cells on both sides, from (x, y) to
   (x2, y2), the nearer vertex first; or a pinched vertex (x, y) strictly inside the leg, one on the inside of the board with two
   diagonally opposite cells blocked and the other two free. What names nothing is 0. Refusals 1 to 5. */
enum wexxolin_stop {
    WEXXOLIN_NOTHING = 0,
    WEXXOLIN_CELL = 1,
    WEXXOLIN_EDGE = 2,
    WEXXOLIN_VERTEX = 3
};
struct wexxolin_sight {
    uint64_t number, place, second, sight, kind, x, y, x2, y2;
};
struct wexxolin_sight wexxolin_sight(const uint8_t *cells, size_t cells_len, size_t width, size_t height,
                                     size_t ax, size_t ay, size_t bx, size_t by)
    WEXXOLIN_EDITION(wexxolin_sight_1);

/* The length of a leg in units (2^20 to a cell) and in cells: by its differences, or between two vertices. Refusals 4 and 5. */
struct wexxolin_length {
    uint64_t number, place, second, units;
    double cells;
};
struct wexxolin_length wexxolin_length(int32_t dx, int32_t dy)
    WEXXOLIN_EDITION(wexxolin_length_1);
struct wexxolin_length wexxolin_length_between(size_t ax, size_t ay, size_t bx, size_t by)
    WEXXOLIN_EDITION(wexxolin_length_between_1);

/* The direction of a leg, dx * 2^20 / units and dy * 2^20 / units: by its differences, or between two vertices.
   Refusals 4, 5 and 9. */
struct wexxolin_direction {
    uint64_t number, place, second;
    double x, y;
};
struct wexxolin_direction wexxolin_direction(int32_t dx, int32_t dy)
    WEXXOLIN_EDITION(wexxolin_direction_1);
struct wexxolin_direction wexxolin_direction_between(size_t ax, size_t ay, size_t bx, size_t by)
    WEXXOLIN_EDITION(wexxolin_direction_between_1);

/* The route from (sx, sy) to (gx, gy); of its vertices only the first and the last may be pinched. vertices is the number of
   entries written to path, and legs one fewer. Refusals 1 to 7; 8 is no path.
   g, parents, marks and legs need (width + 1) * (height + 1) entries; WEXXOLIN_MOST_VERTICES always suffice, for path too.
   After 0, 7 and 8 they hold each vertex's length from the start, its parent, its mark (0 unseen, 1 open, 2 expanded) and its legs
   from the start. */
struct wexxolin_route {
    uint64_t number, place, second;
    double cells;
    uint64_t units, vertices, legs, expansions, tests;
};
struct wexxolin_route wexxolin_route(const uint8_t *cells, size_t cells_len, size_t width, size_t height,
                                     size_t sx, size_t sy, size_t gx, size_t gy,
                                     uint64_t *g, size_t g_len, wexxolin_vertex *parents, size_t parents_len,
                                     uint8_t *marks, size_t marks_len, wexxolin_vertex *legs, size_t legs_len,
                                     wexxolin_vertex *path, size_t path_len)
    WEXXOLIN_EDITION(wexxolin_route_2);

/* A job's board, its cells written to board, which needs width * height bytes; WEXXOLIN_MOST_CELLS always suffice.
   Refusals 10 to 19 and 23. */
struct wexxolin_board {
    uint64_t number, place, second, width, height, nets;
};
struct wexxolin_board wexxolin_board(const uint8_t *job, size_t job_len, uint8_t *board, size_t board_len)
    WEXXOLIN_EDITION(wexxolin_board_1);

/* A job's net by its index from 0. Refusals 10 to 18, 20 and 23. */
struct wexxolin_net {
    uint64_t number, place, second, net, sx, sy, gx, gy;
};
struct wexxolin_net wexxolin_net(const uint8_t *job, size_t job_len, size_t index)
    WEXXOLIN_EDITION(wexxolin_net_1);

/* A packed board has one bit per cell, 1 blocked, high bit first, each row filled up to a whole byte with zero bits:
   (width + 7) / 8 bytes a row, height rows; WEXXOLIN_MOST_PACKED bytes always suffice.
   What wexxolin_unpack and wexxolin_pack hand back has no value. */
struct wexxolin_pack {
    uint64_t number, place, second;
};

/* Packed bytes into cells, which needs width * height bytes. Refusals 1, 29, 30 and 19, in this order. */
struct wexxolin_pack wexxolin_unpack(const uint8_t *packed, size_t packed_len, size_t width, size_t height,
                                     uint8_t *cells, size_t cells_len)
    WEXXOLIN_EDITION(wexxolin_unpack_1);

/* Cells into packed bytes. Refusals 1, 2, 3 and 21. */
struct wexxolin_pack wexxolin_pack(const uint8_t *cells, size_t cells_len, size_t width, size_t height,
                                   uint8_t *packed, size_t packed_len)
    WEXXOLIN_EDITION(wexxolin_pack_1);

/* How many cells of packed bytes are blocked. Refusals 1, 29 and 30. */
struct wexxolin_count_packed {
    uint64_t number, place, second, blocked;
};
struct wexxolin_count_packed wexxolin_count_packed(const uint8_t *packed, size_t packed_len, size_t width, size_t height)
    WEXXOLIN_EDITION(wexxolin_count_packed_1);

/* The route program's line for what a call hands back, as bytes without a final 0. number 0: the line of net with a path, its vertex
   numbers printed as x,y by the board's width (0 counts as 1). 8: the line of net without a path. Every other number: that of a refusal,
   number at place, with second for 23, 26 and 27 alone. What a line does not name is not read. Refusal 21: out is shorter than the
   line, and nothing is written. bytes is how many were written; WEXXOLIN_LONGEST_LINE always suffice for what the calls hand back, and
   a path of other vertices may take more. */
#define WEXXOLIN_LONGEST_LINE 24687
struct wexxolin_line {
    uint64_t number, place, second, bytes;
};
struct wexxolin_line wexxolin_line(uint64_t net, uint64_t number, uint64_t place, uint64_t second, uint64_t units,
                                   uint64_t expansions, uint64_t tests, size_t width, const wexxolin_vertex *path,
                                   size_t path_len, uint8_t *out, size_t out_len)
    WEXXOLIN_EDITION(wexxolin_line_1);

/* A route file has records of 8 bytes: type 4 (net number, the place in the path from 0 in two bytes, low byte first, x, y, and two
   zero bytes) for each point of a path, type 5 (net number and six zeros) for a net with no path. Net numbers rise from above 0. In
   slices: nets has the net numbers, counts how many points each net has, 0 for no path, xs and ys the points' x and y, net after net. */

/* The routes of a file of any length, which may be empty. nets and points are how many entries were written to nets and counts, and
   to xs and ys: at most 255 nets and file_len / 8 points. Refusals 11, then in each record 13, 23 and 22; last 21 for a slice that is
   too short. */
struct wexxolin_read_routes {
    uint64_t number, place, second, nets, points;
};
struct wexxolin_read_routes wexxolin_read_routes(const uint8_t *file, size_t file_len, uint8_t *nets, size_t nets_len,
                                                 size_t *counts, size_t counts_len, uint8_t *xs, size_t xs_len,
                                                 uint8_t *ys, size_t ys_len)
    WEXXOLIN_EDITION(wexxolin_read_routes_1);

/* The file of routes: records * 8 bytes are written. counts needs an entry for each entry of nets, xs and ys one for each point that is
   counted. Refusals 22, judged of what would be written, with the record (a net number that is not above the one before; in a path of
   more than 65,536 points the record whose place two bytes do not hold); then 21 for any slice that is too short. */
struct wexxolin_write_routes {
    uint64_t number, place, second, records;
};
struct wexxolin_write_routes wexxolin_write_routes(const uint8_t *nets, size_t nets_len, const size_t *counts, size_t counts_len,
                                                   const uint8_t *xs, size_t xs_len, const uint8_t *ys, size_t ys_len,
                                                   uint8_t *file, size_t file_len)
    WEXXOLIN_EDITION(wexxolin_write_routes_1);

/* The x and y of a path's vertex numbers on a board of this width. Refusals 1 (the width), 4 (a vertex whose y is above 63) and 21. */
struct wexxolin_path_points {
    uint64_t number, place, second;
};
struct wexxolin_path_points wexxolin_path_points(const wexxolin_vertex *path, size_t path_len, size_t width,
                                                 uint8_t *xs, size_t xs_len, uint8_t *ys, size_t ys_len)
    WEXXOLIN_EDITION(wexxolin_path_points_1);

/* Routes that come from the layout bureau, a route file, checked against a job. Accepted exactly if the file has the job's nets and no
   others and each is right: its path begins at the net's start and ends at its goal, all vertices are on the board, no two successive
   ones are equal, every leg has sight, and no vertex between the first and the last is pinched; or no path is claimed, and single moves
   between visible neighbours do not join the start to the goal. Then nets is the number of nets, and units and leg_counts, which need
   an entry for each net (255 always suffice), hold each path's length and its number of legs in file order, 0 where there is no path.
   Refusals: those of the job (10 to 18 and 23), those of the file (11, 13, 23, 22), 19 for board, 6 for g, parents, marks or legs, 21
   for units or leg_counts; then 24, the lowest net; then net by net 25, 26, 27 or 28. With 0, and from 24 on, board holds the job's
   cells; units and leg_counts are written with 0 alone. It searches only where no path is claimed: g, parents, marks and legs, which
   need (width + 1) * (height + 1) entries, are as the last search left them, and untouched if none ran. */
struct wexxolin_check {
    uint64_t number, place, second, nets;
};
struct wexxolin_check wexxolin_check(const uint8_t *job, size_t job_len, const uint8_t *routes, size_t routes_len,
                                     uint8_t *board, size_t board_len, uint64_t *g, size_t g_len,
                                     wexxolin_vertex *parents, size_t parents_len, uint8_t *marks, size_t marks_len,
                                     wexxolin_vertex *legs, size_t legs_len, uint64_t *units, size_t units_len,
                                     uint32_t *leg_counts, size_t leg_counts_len)
    WEXXOLIN_EDITION(wexxolin_check_1);

/* Each answer under one name, for C++ too, where a function hides the struct of the same name. */
typedef struct wexxolin_sight wexxolin_sight_answer;
typedef struct wexxolin_length wexxolin_length_answer;
typedef struct wexxolin_direction wexxolin_direction_answer;
typedef struct wexxolin_route wexxolin_route_answer;
typedef struct wexxolin_board wexxolin_board_answer;
typedef struct wexxolin_net wexxolin_net_answer;
typedef struct wexxolin_pack wexxolin_pack_answer;
typedef struct wexxolin_count_packed wexxolin_count_packed_answer;
typedef struct wexxolin_line wexxolin_line_answer;
typedef struct wexxolin_read_routes wexxolin_read_routes_answer;
typedef struct wexxolin_write_routes wexxolin_write_routes_answer;
typedef struct wexxolin_path_points wexxolin_path_points_answer;
typedef struct wexxolin_check wexxolin_check_answer;

/* The structs are as long as the library takes them to be: else one of these arrays has no length, and nothing compiles. */
typedef char wexxolin_sight_is_72_bytes[sizeof(wexxolin_sight_answer) == 72 ? 1 : -1];
typedef char wexxolin_length_is_40_bytes[sizeof(wexxolin_length_answer) == 40 ? 1 : -1];
typedef char wexxolin_direction_is_40_bytes[sizeof(wexxolin_direction_answer) == 40 ? 1 : -1];
typedef char wexxolin_route_is_72_bytes[sizeof(wexxolin_route_answer) == 72 ? 1 : -1];
typedef char wexxolin_board_is_48_bytes[sizeof(wexxolin_board_answer) == 48 ? 1 : -1];
typedef char wexxolin_net_is_64_bytes[sizeof(wexxolin_net_answer) == 64 ? 1 : -1];
typedef char wexxolin_pack_is_24_bytes[sizeof(wexxolin_pack_answer) == 24 ? 1 : -1];
typedef char wexxolin_count_packed_is_32_bytes[sizeof(wexxolin_count_packed_answer) == 32 ? 1 : -1];
typedef char wexxolin_line_is_32_bytes[sizeof(wexxolin_line_answer) == 32 ? 1 : -1];
typedef char wexxolin_read_routes_is_40_bytes[sizeof(wexxolin_read_routes_answer) == 40 ? 1 : -1];
typedef char wexxolin_write_routes_is_32_bytes[sizeof(wexxolin_write_routes_answer) == 32 ? 1 : -1];
typedef char wexxolin_path_points_is_24_bytes[sizeof(wexxolin_path_points_answer) == 24 ? 1 : -1];
typedef char wexxolin_check_is_32_bytes[sizeof(wexxolin_check_answer) == 32 ? 1 : -1];
typedef char wexxolin_size_is_8_bytes[sizeof(size_t) == 8 && sizeof(double) == 8 ? 1 : -1];

#ifdef __cplusplus
}
#endif
#endif
