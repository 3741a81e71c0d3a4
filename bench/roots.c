/* Asks wexxolin_length for the legs with dx and dy from FROM to TO, TIMES over, so that a counter outside can say what a length
   costs:

       roots FROM TO TIMES SCALE

   With SCALE 0 it asks as often, but for the leg 0, 0 each time. Prints the sum of the units. */
#include "../include/wexxolin.h"

#include <stdio.h>
#include <stdlib.h>

int main(int argc, char **argv)
{
    if (argc != 5) {
        fprintf(stderr, "usage: roots FROM TO TIMES SCALE\n");
        return 2;
    }
    int from = atoi(argv[1]), to = atoi(argv[2]), times = atoi(argv[3]), scale = atoi(argv[4]);
    unsigned long long units = 0;
    for (int k = 0; k < times; k++)
        for (int dx = from; dx <= to; dx++)
            for (int dy = from; dy <= to; dy++)
                units += wexxolin_length(dx * scale, dy * scale).units;
    printf("units %llu\n", units);
    return 0;
}
