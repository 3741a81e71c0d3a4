/* wexxolin check JOB ROUTES: whether the layout bureau's routes are right. */
#include "command.h"

#include <stdio.h>
#include <string.h>

/* A job and a route file share the numbers 11, 13 and 23: says which of the two is refused. */
static void tell_whose(uint64_t number, const struct job *job, char **words)
{
    static struct board board;
    bool shared = number == WEXXOLIN_CUT_JOB || number == WEXXOLIN_UNKNOWN_TYPE || number == WEXXOLIN_UNUSED_BYTE;
    board.is = wexxolin_board(job->bytes, job->length, board.cells, sizeof board.cells);
    const char *name = words[board.is.number == WEXXOLIN_DONE ? 1 : 0];
    if (shared)
        fprintf(stderr, "wexxolin: that is of %s\n", strcmp(name, "-") ? name : "standard input");
}

/* The check by the library, with room for any job; a refusal is printed, else a line for each net. */
static int check_routes(const struct job *job, const struct file *file, char **words)
{
    static uint8_t board[WEXXOLIN_MOST_CELLS], marks[WEXXOLIN_MOST_VERTICES];
    static uint64_t g[WEXXOLIN_MOST_VERTICES], units[MOST_NETS];
    static wexxolin_vertex parents[WEXXOLIN_MOST_VERTICES], legs[WEXXOLIN_MOST_VERTICES];
    static uint32_t leg_counts[MOST_NETS];
    size_t most = WEXXOLIN_MOST_VERTICES;
    wexxolin_check_answer is = wexxolin_check(job->bytes, job->length, file->bytes, file->length, board, sizeof board, g, most, parents,
                                              most, marks, most, legs, most, units, MOST_NETS, leg_counts, MOST_NETS);
    if (is.number != WEXXOLIN_DONE) {
        int status = refuse(is.number, is.place, is.second);
        tell_whose(is.number, job, words);
        return status;
    }
    for (size_t index = 0; index < is.nets; index++)
        put("net %d units %llu legs %lu\n", (int)wexxolin_net(job->bytes, job->length, index).net, (unsigned long long)units[index],
            (unsigned long)leg_counts[index]);
    return DONE;
}

int run_check(int count, char **words)
{
    static struct job job;
    static struct file file;
    (void)count; /* it takes two words */
    if (!strcmp(words[0], "-") && !strcmp(words[1], "-"))
        return complain("the job and its routes cannot both be standard input");
    int status = read_job(&job, words[0]);
    if (status == DONE)
        status = read_file(&file, words[1]);
    if (status == DONE && file.text)
        status = hex_bytes(&file);
    return status == DONE ? check_routes(&job, &file, words) : status;
}
