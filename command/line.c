/* The lines of nets and of refusals. Each is written by the library's line call; none is made here. */
#include "command.h"

#include <stdio.h>

/* The room is that of the longest line, so that the call never refuses. */
static uint8_t line[WEXXOLIN_LONGEST_LINE];

void put_route(const struct search *search, size_t width)
{
    const wexxolin_route_answer *is = &search->is;
    put_bytes(line, wexxolin_line(search->net.net, is->number, is->place, is->second, is->units, is->expansions, is->tests, width,
                                  search->path, is->vertices, line, sizeof line).bytes);
}

/* What the places of a number are, in words; the numbers of a job and of a route file name a record. */
static void tell_place(uint64_t number, uint64_t place, uint64_t second)
{
    bool record = (number >= WEXXOLIN_BOARD_PLACE && number <= WEXXOLIN_LATE_KEEPOUT) || number == WEXXOLIN_ROUTE_ORDER ||
                  number == WEXXOLIN_UNUSED_BYTE;
    if (number == WEXXOLIN_BAD_CELL)
        fprintf(stderr, ": cell %llu", (unsigned long long)place);
    if (number == WEXXOLIN_FILLING_BIT)
        fprintf(stderr, ": byte %llu of the packed board", (unsigned long long)place);
    if (number == WEXXOLIN_SHORT_PATH)
        fprintf(stderr, ": %llu vertices are needed", (unsigned long long)place);
    if (record)
        fprintf(stderr, ": record %llu, from byte %llu", (unsigned long long)place,
                (unsigned long long)(place * WEXXOLIN_RECORD_BYTES));
    if (number == WEXXOLIN_UNUSED_BYTE)
        fprintf(stderr, ", its byte %llu", (unsigned long long)second);
    if (number >= WEXXOLIN_ODD_NET && number <= WEXXOLIN_PATH_EXISTS)
        fprintf(stderr, ": net %llu", (unsigned long long)place);
    if (number == WEXXOLIN_OFF_BOARD)
        fprintf(stderr, ", vertex %llu of its path, from 0", (unsigned long long)second);
    if (number == WEXXOLIN_WRONG_LEG)
        fprintf(stderr, ", the leg from vertex %llu of its path, from 0", (unsigned long long)second);
    fputc('\n', stderr);
}

/* The line of a refusal, and its meaning on standard error. */
int refuse(uint64_t number, uint64_t place, uint64_t second)
{
    const char *text = wexxolin_text(number);
    put_bytes(line, wexxolin_line(0, number, place, second, 0, 0, 0, 0, NULL, 0, line, sizeof line).bytes);
    fprintf(stderr, "wexxolin: refused, %s", text ? text : "by a number that this command does not know");
    tell_place(number, place, second);
    return REFUSED;
}
