/* wexxolin explain [N]: what a number means, and what to do. */
#include "command.h"

static const struct advice {
    enum wexxolin_number number;
    const char *do_this;
} advice[] = {
    { WEXXOLIN_DONE, "Nothing is to be done." },
    { WEXXOLIN_BAD_SIDES, "Give a board of 1 to 63 cells a side." },
    { WEXXOLIN_BAD_CELL_COUNT, "Give one cell for each place of the board, row by row." },
    { WEXXOLIN_BAD_CELL, "The place is the index of the first such cell, from 0: make it 0 (free) or 1 (blocked)." },
    { WEXXOLIN_BAD_FIRST, "Vertices are cell corners from 0,0 to WIDTH,HEIGHT: move the first end of the leg, or the start." },
    { WEXXOLIN_BAD_SECOND, "Vertices are cell corners from 0,0 to WIDTH,HEIGHT: move the second end of the leg, or the goal." },
    { WEXXOLIN_SHORT_WORK, "Lend an entry for each vertex: WEXXOLIN_MOST_VERTICES always suffice." },
    { WEXXOLIN_SHORT_PATH, "The place is the number of vertices needed: lend a longer path and route again." },
    { WEXXOLIN_NO_PATH,
      "A result, no refusal: keepouts close the goal off, also where two touch at a corner. Move a keepout or an end." },
    { WEXXOLIN_NO_DIRECTION, "Ask for the direction of legs with two different ends only." },
    { WEXXOLIN_LONG_JOB, "A job has room for 1,024 records of 8 bytes: merge keepouts, or cut the job in two by its nets." },
    { WEXXOLIN_CUT_JOB, "Records have 8 bytes each: the last one is cut off or something stands behind it." },
    { WEXXOLIN_BOARD_PLACE, "Begin the job with its one board record (type 1): the place is the record that is wrong." },
    { WEXXOLIN_UNKNOWN_TYPE,
      "Byte 0 is 1 (board), 2 (keepout) or 3 (net) in a job, 4 (point) or 5 (no path) in a route file: the place is the record." },
    { WEXXOLIN_BAD_BOARD, "Bytes 2 and 3 of the board record are its width and height, 1 to 63." },
    { WEXXOLIN_BAD_KEEPOUT, "Bytes 2 to 5 of a keepout are its first cell's x, y and the x, y just past its last one." },
    { WEXXOLIN_BAD_NET_END, "Bytes 2 to 5 of a net are its start's x, y and its goal's, at most the board's width and height." },
    { WEXXOLIN_BAD_NET_NUMBER, "Byte 1 of a net is its number, from 1 on: put the nets in rising order, each number once." },
    { WEXXOLIN_LATE_KEEPOUT, "Put every keepout before the first net." },
    { WEXXOLIN_SHORT_BOARD, "Lend a byte for each cell: WEXXOLIN_MOST_CELLS always suffice." },
    { WEXXOLIN_NO_NET, "Count a job's nets from 0: the board call tells how many there are." },
    { WEXXOLIN_SHORT_OUTPUT, "Lend more bytes to write to: the call's comment in wexxolin.h says how many suffice." },
    { WEXXOLIN_ROUTE_ORDER,
      "The records of a net stand together, its places count up from 0, and net numbers rise: the place is the record." },
    { WEXXOLIN_UNUSED_BYTE, "Set the bytes that a record does not use to 0: the places are the record and its byte." },
    { WEXXOLIN_ODD_NET, "The place is the lowest net number that only one of the two has: add its route, or take it out." },
    { WEXXOLIN_WRONG_END, "The place is the net: its path goes from the job's start to the job's goal, start first." },
    { WEXXOLIN_OFF_BOARD,
      "The places are the net and the vertex's place in its path, from 0: x is at most the board's width, y at most its height." },
    { WEXXOLIN_WRONG_LEG,
      "The places are the net and the place of the leg's first vertex: 'wexxolin sight' says what stops the leg, if its ends differ." },
    { WEXXOLIN_PATH_EXISTS, "The place is the net: 'wexxolin route' gives a path for it." },
    { WEXXOLIN_PACKED_LENGTH, "A packed board has HEIGHT rows of (WIDTH + 7) / 8 bytes: check the sides, or the file is cut off." },
    { WEXXOLIN_FILLING_BIT, "The bits behind a row's last cell are 0: the place is the first byte, from 0, in which one is not." },
};

enum { KNOWN = sizeof advice / sizeof advice[0] };

int run_explain(int count, char **words)
{
    uint64_t number = 0;
    bool all = count == 0, found = false;
    if (!all && !whole_number(words[0], &number))
        return complain("'%s' is no number", words[0]);
    for (size_t i = 0; i < KNOWN; i++) {
        if (!all && advice[i].number != number)
            continue;
        put("%d: %s\n    %s\n", (int)advice[i].number, wexxolin_text(advice[i].number), advice[i].do_this);
        found = true;
    }
    return found ? DONE : complain("no call hands back the number %s", words[0]);
}
