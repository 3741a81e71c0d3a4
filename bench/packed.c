/* Reads, writes or counts one packed board TIMES over, so that a counter outside can say what a call costs:

       packed CALL WIDTH HEIGHT TIMES

   CALL is unpack, pack or count. 30 in 100 of the board's cells are blocked. Prints how many calls were accepted and the sum of what
   was counted. */
#include "../include/wexxolin.h"
#include "../tests/boards.h"

#include <stdio.h>
#include <stdlib.h>
#include <string.h>

static uint8_t cells[63 * 63], packed[8 * 63], out[63 * 63];
static size_t width, height, bytes, count;
static unsigned long long accepted, blocked;

static void unpack(void) { accepted += wexxolin_unpack(packed, bytes, width, height, out, count).number == 0; }
static void pack(void) { accepted += wexxolin_pack(cells, count, width, height, out, bytes).number == 0; }
static void count_blocked(void)
{
    struct wexxolin_count_packed counted = wexxolin_count_packed(packed, bytes, width, height);
    accepted += counted.number == 0;
    blocked += counted.blocked;
}

int main(int argc, char **argv)
{
    if (argc != 5) {
        fprintf(stderr, "usage: packed CALL WIDTH HEIGHT TIMES\n");
        return 2;
    }
    width = (size_t)atoi(argv[2]), height = (size_t)atoi(argv[3]), bytes = (width + 7) / 8 * height, count = width * height;
    if (width < 1 || width > 63 || height < 1 || height > 63) {
        fprintf(stderr, "packed: sides go from 1 to 63\n");
        return 2;
    }
    struct dice dice = dice_of(1);
    board_scattered(&dice, cells, width, height, 30);
    wexxolin_pack(cells, count, width, height, packed, bytes);
    /* what is asked is known before the first turn, so that a turn costs the call and little more */
    void (*turn)(void) = strcmp(argv[1], "unpack") == 0 ? unpack : strcmp(argv[1], "pack") == 0 ? pack : count_blocked;
    int times = atoi(argv[4]);
    for (int k = 0; k < times; k++)
        turn();
    printf("accepted %llu blocked %llu\n", accepted, blocked);
    return 0;
}
