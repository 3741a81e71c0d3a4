/* Runs the calls on a stack that was painted before, and tells how many of its bytes were changed: what a caller must have.

       stack KIB

   Fails if a call changed more than KIB kibibytes, the figure that include/wexxolin.h states. The call's arguments and the
   few bytes that start it on its own stack are counted too. */
#define _GNU_SOURCE
#include "boards.h"
#include "rooms.h"
#include "../include/wexxolin.h"

#include <stdio.h>
#include <stdlib.h>
#include <string.h>
#include <ucontext.h>

enum { SIDE = 63, CELLS = SIDE * SIDE, VERTICES = (SIDE + 1) * (SIDE + 1), STACK = 1 << 20, PAINT = 0xa5 };
enum { NETS = 255, POINTS = 20 * NETS };

static struct dice dice;
static struct room stack;
static uint8_t cells[CELLS], marks[VERTICES], board[CELLS], packed[8 * SIDE], line[WEXXOLIN_LONGEST_LINE];
static uint64_t g[VERTICES];
static wexxolin_vertex parents[VERTICES], legs[VERTICES], path[VERTICES];
static uint8_t claims[255 * WEXXOLIN_RECORD_BYTES];
static uint64_t units[255];
static uint32_t leg_counts[255];
static struct job job;
static size_t from_x, from_y;
static uint8_t nets[NETS], xs[POINTS], ys[POINTS], file[8 * POINTS];
static size_t counts[NETS], points, file_bytes;

/* Set by each call, so that none is left out. */
static volatile uint64_t number;

static void call_route(void)
{
    number = wexxolin_route(cells, CELLS, SIDE, SIDE, from_x, from_y, SIDE, SIDE, g, VERTICES, parents, VERTICES, marks, VERTICES,
                            legs, VERTICES, path, VERTICES)
                 .number;
}
static void call_sight(void) { number = wexxolin_sight(cells, CELLS, SIDE, SIDE, from_x, from_y, SIDE, SIDE).number; }
static void call_length(void) { number = wexxolin_length_between(from_x, from_y, SIDE, SIDE).number; }
static void call_direction(void) { number = wexxolin_direction_between(from_x, from_y, SIDE, SIDE).number; }
static void call_board(void) { number = wexxolin_board(job.bytes, job.length, board, CELLS).number; }
static void call_net(void) { number = wexxolin_net(job.bytes, job.length, 254).number; }
static void call_pack(void) { number = wexxolin_pack(cells, CELLS, SIDE, SIDE, packed, sizeof packed).number; }
static void call_unpack(void) { number = wexxolin_unpack(packed, sizeof packed, SIDE, SIDE, board, CELLS).number; }
static void call_line(void) { number = wexxolin_line(1, 0, 0, 0, 1, 2, 3, SIDE, path, VERTICES, line, sizeof line).number; }
static void call_check(void)
{
    number = wexxolin_check(job.bytes, job.length, claims, sizeof claims, board, CELLS, g, VERTICES, parents, VERTICES, marks, VERTICES,
                            legs, VERTICES, units, 255, leg_counts, 255)
                 .number;
}
static void call_count(void) { number = wexxolin_count_packed(packed, sizeof packed, SIDE, SIDE).number; }

static void call_write(void)
{
    number = wexxolin_write_routes(nets, NETS, counts, NETS, xs, points, ys, points, file, sizeof file).number;
}
static void call_read(void) { number = wexxolin_read_routes(file, file_bytes, nets, NETS, counts, NETS, xs, POINTS, ys, POINTS).number; }
static void call_points(void) { number = wexxolin_path_points(path, VERTICES, SIDE, xs, POINTS, ys, POINTS).number; }

/* The bytes of the stack, from its upper end, down to the lowest one that the call changed. */
static size_t bytes_used(void (*call)(void))
{
    ucontext_t here, there;
    memset(stack.ours, PAINT, STACK);
    getcontext(&there);
    there.uc_stack.ss_sp = stack.ours;
    there.uc_stack.ss_size = STACK;
    there.uc_link = &here;
    makecontext(&there, call, 0);
    swapcontext(&here, &there);
    size_t unchanged = 0;
    while (unchanged < STACK && stack.ours[unchanged] == PAINT)
        unchanged++;
    return STACK - unchanged;
}

/* Routes of as many nets as there are, and their file. */
static void throw_routes(void)
{
    points = 0;
    for (size_t net = 0; net < NETS; net++) {
        nets[net] = (uint8_t)(net + 1);
        counts[net] = dice_below(&dice, POINTS / NETS);
        points += counts[net];
    }
    file_bytes = 8 * wexxolin_write_routes(nets, NETS, counts, NETS, xs, points, ys, points, file, sizeof file).records;
}

/* A route file for the job's nets, 1 to 255: no path for all of them, or a path of one vertex. */
static void throw_claims(size_t k)
{
    for (size_t net = 1; net <= 255; net++) {
        struct wexxolin_net ends = wexxolin_net(job.bytes, job.length, net - 1);
        uint8_t *record = claims + WEXXOLIN_RECORD_BYTES * (net - 1);
        memset(record, 0, WEXXOLIN_RECORD_BYTES);
        record[0] = k % 2 ? 4 : 5;
        record[1] = (uint8_t)net;
        if (record[0] == 4) {
            record[4] = (uint8_t)ends.sx;
            record[5] = (uint8_t)ends.sy;
        }
    }
}

/* Boards on which the search takes other ways: open ground, dead ends, many and few vertices in its list, no path. */
static void throw_board(size_t k)
{
    switch (k % 6) {
    case 0: memset(cells, (int)(k / 6 % 2), CELLS); break;
    case 1: board_maze(&dice, cells, SIDE, SIDE); break;
    case 2: board_serpentine(&dice, cells, SIDE, SIDE); break;
    case 3: board_chequered(&dice, cells, SIDE, SIDE, dice_below(&dice, 40)); break;
    case 4: board_enclose(cells, SIDE, SIDE, SIDE, SIDE); break;
    default: board_scattered(&dice, cells, SIDE, SIDE, dice_below(&dice, 50)); break;
    }
    from_x = k % 3 ? dice_below(&dice, SIDE) : 0;
    from_y = k % 3 ? dice_below(&dice, SIDE) : 0;
    job_full(&dice, &job, SIDE, SIDE);
    throw_routes();
    throw_claims(k);
}

static void tell_fault(const char *where)
{
    fprintf(stderr, "DIFFERENCE in group 'stack'\nmore than %d bytes: %s\n", STACK, where);
    exit(1);
}

int main(int argc, char **argv)
{
    static const struct {
        const char *name;
        void (*call)(void);
    } calls[] = {{"route", call_route},   {"sight", call_sight}, {"length", call_length}, {"direction", call_direction},
                 {"board", call_board},   {"net", call_net},     {"pack", call_pack},     {"unpack", call_unpack},
                 {"count", call_count},   {"line", call_line},   {"write", call_write},   {"read", call_read},
                 {"points", call_points}, {"check", call_check}};
    size_t limit = argc > 1 ? 1024 * (size_t)strtoull(argv[1], NULL, 0) : 0, over = 0;
    dice = dice_of(1);
    room_open(&stack, "stack", STACK, WRITABLE);
    rooms_watch(tell_fault);
    printf("bytes of stack, at most %zu:", limit);
    for (size_t i = 0; i < sizeof calls / sizeof *calls; i++) {
        size_t most = 0;
        for (size_t k = 0; k < 60; k++) {
            throw_board(k);
            size_t used = bytes_used(calls[i].call);
            most = used > most ? used : most;
        }
        printf(" %s %zu", calls[i].name, most);
        over += most > limit;
    }
    printf("\n");
    if (over)
        fprintf(stderr, "DIFFERENCE in group 'stack'\nmore than the %zu bytes that include/wexxolin.h states\n", limit);
    return over != 0;
}
