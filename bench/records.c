/* Reads or writes 10 MB of route records TIMES over, so that a counter outside can say what a call costs:

       records CALL TIMES

   CALL is read or write. The file has 1,250,000 records: 24 nets of 52,083 points each and eight nets with no path. Prints how many
   calls were accepted and the number of records. */
#include "../include/wexxolin.h"
#include "../tests/boards.h"

#include <stdio.h>
#include <stdlib.h>
#include <string.h>

enum { NETS = 32, POINTS = 52083, WITH_PATH = 24, RECORDS = WITH_PATH * POINTS + NETS - WITH_PATH };

static uint8_t nets[NETS], xs[WITH_PATH * POINTS], ys[WITH_PATH * POINTS], file[8 * RECORDS];
static size_t counts[NETS];
static unsigned long long accepted;

static void read_file(void)
{
    accepted += wexxolin_read_routes(file, sizeof file, nets, NETS, counts, NETS, xs, sizeof xs, ys, sizeof ys).number == 0;
}

static void write_file(void)
{
    accepted += wexxolin_write_routes(nets, NETS, counts, NETS, xs, sizeof xs, ys, sizeof ys, file, sizeof file).number == 0;
}

int main(int argc, char **argv)
{
    if (argc != 3) {
        fprintf(stderr, "usage: records CALL TIMES\n");
        return 2;
    }
    struct dice dice = dice_of(1);
    for (size_t k = 0; k < NETS; k++) {
        nets[k] = (uint8_t)(k + 1);
        counts[k] = k % 4 == 3 ? 0 : POINTS;
    }
    dice_fill(&dice, xs, sizeof xs);
    dice_fill(&dice, ys, sizeof ys);
    write_file();
    accepted = 0;
    /* what is asked is known before the first turn, so that a turn costs the call and little more */
    void (*turn)(void) = strcmp(argv[1], "read") == 0 ? read_file : write_file;
    for (int times = atoi(argv[2]); times > 0; times--)
        turn();
    printf("%llu accepted, %d records\n", accepted, RECORDS);
    return 0;
}
