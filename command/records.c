/* wexxolin records and read: routes as records, to a file and from one. */
#include "command.h"

#include <stdlib.h>

enum { MOST_POINTS = MOST_NETS * WEXXOLIN_MOST_VERTICES };

/* The routes of a whole file, by the library; a refusal is printed. The process's end frees the memory. */
int take_routes(struct routes *routes, const struct file *file)
{
    size_t points = file->length / WEXXOLIN_RECORD_BYTES;
    routes->xs = malloc(points + 1);
    routes->ys = malloc(points + 1);
    if (!routes->xs || !routes->ys)
        return complain("no memory for the routes");
    routes->is = wexxolin_read_routes(file->bytes, file->length, routes->nets, MOST_NETS, routes->counts, MOST_NETS, routes->xs,
                                      points, routes->ys, points);
    return routes->is.number == WEXXOLIN_DONE ? DONE : refuse(routes->is.number, routes->is.place, routes->is.second);
}

/* wexxolin read [ROUTES]: a line for each net of a route file. */
int run_read(int count, char **words)
{
    static struct file file;
    static struct routes routes;
    int status = read_file(&file, count > 0 ? words[0] : NULL);
    if (status == DONE && file.text)
        status = hex_bytes(&file);
    if (status == DONE)
        status = take_routes(&routes, &file);
    for (size_t net = 0, at = 0; status == DONE && net < routes.is.nets; net++) {
        put(routes.counts[net] ? "net %d at" : "net %d none", (int)routes.nets[net]);
        for (size_t end = at + routes.counts[net]; at < end; at++)
            put(" %d,%d", (int)routes.xs[at], (int)routes.ys[at]);
        put("\n");
    }
    return status;
}

/* The routes of a job's nets, each on the keepouts alone; how many points they have. The room suffices for every job, and a path's
   vertices are on its board, so that no call refuses. */
static size_t route_points(const struct job *job, const struct board *board, struct routes *routes)
{
    static struct search search;
    size_t points = 0;
    for (size_t index = 0; index < board->is.nets; index++) {
        route_net(&search, job, board, index);
        routes->nets[index] = (uint8_t)search.net.net;
        routes->counts[index] = search.is.vertices;
        wexxolin_path_points(search.path, search.is.vertices, board->is.width, routes->xs + points, MOST_POINTS - points,
                             routes->ys + points, MOST_POINTS - points);
        points += search.is.vertices;
    }
    return points;
}

/* wexxolin records [JOB] */
int run_records(int count, char **words)
{
    static struct job job;
    static struct board board;
    static struct routes routes;
    static uint8_t xs[MOST_POINTS], ys[MOST_POINTS], file[(MOST_POINTS + MOST_NETS) * WEXXOLIN_RECORD_BYTES];
    int status = read_job(&job, count > 0 ? words[0] : NULL);
    if (status == DONE)
        status = read_board(&board, &job);
    if (status != DONE)
        return status;
    routes.xs = xs;
    routes.ys = ys;
    size_t points = route_points(&job, &board, &routes);
    wexxolin_write_routes_answer written = wexxolin_write_routes(routes.nets, board.is.nets, routes.counts, board.is.nets, xs,
                                                                 points, ys, points, file, sizeof file);
    if (written.number != WEXXOLIN_DONE)
        return refuse(written.number, written.place, written.second);
    put_bytes(file, written.records * WEXXOLIN_RECORD_BYTES);
    return DONE;
}
