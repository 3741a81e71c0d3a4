/* wexxolin route [JOB], and the one place where the command asks for a route. */
#include "command.h"

/* The route of an accepted job's net by its index from 0, by the library. */
void route_net(struct search *search, const struct job *job, const struct board *board, size_t index)
{
    static uint64_t g[WEXXOLIN_MOST_VERTICES];
    static wexxolin_vertex parents[WEXXOLIN_MOST_VERTICES], legs[WEXXOLIN_MOST_VERTICES];
    size_t width = board->is.width, height = board->is.height, most = WEXXOLIN_MOST_VERTICES;
    search->net = wexxolin_net(job->bytes, job->length, index);
    search->is = wexxolin_route(board->cells, width * height, width, height, search->net.sx, search->net.sy, search->net.gx,
                                search->net.gy, g, most, parents, most, search->marks, most, legs, most, search->path, most);
}

int run_route(int count, char **words)
{
    static struct job job;
    static struct board board;
    static struct search search;
    int status = read_job(&job, count > 0 ? words[0] : NULL);
    if (status == DONE)
        status = read_board(&board, &job);
    for (size_t index = 0; status == DONE && index < board.is.nets; index++) {
        route_net(&search, &job, &board, index);
        put_route(&search, board.is.width);
    }
    return status;
}
