#include "check.h"
#include "second.h"

#include <string.h>

enum { RECORD = 8, MOST_CELLS = 63 * 63, MOST_VERTICES = 64 * 64 };

static struct wexxolin_check refused(uint64_t number, uint64_t place, uint64_t second)
{
    return (struct wexxolin_check){number, place, second, 0};
}

/* ---------- the bureau's records ---------- */

/* "type 4 with net number, two bytes for the place in the path counted from 0 (low byte first), x, y, and two zero bytes; type 5
   with net number and six zeros" */
static unsigned type_of(const uint8_t *routes, size_t i) { return routes[RECORD * i]; }
static unsigned net_of(const uint8_t *routes, size_t i) { return routes[RECORD * i + 1]; }
static unsigned place_of(const uint8_t *routes, size_t i) { return routes[RECORD * i + 2] + 256u * routes[RECORD * i + 3]; }
static unsigned x_of(const uint8_t *routes, size_t i) { return routes[RECORD * i + 4]; }
static unsigned y_of(const uint8_t *routes, size_t i) { return routes[RECORD * i + 5]; }

static int is_stray(const uint8_t *routes, size_t i, size_t byte)
{
    size_t used = type_of(routes, i) == 4 ? 6 : 2;
    return byte >= used && routes[RECORD * i + byte] != 0;
}

/* "22 exactly if the net number is 0 or below the one before, a net's first place isn't 0, a later place isn't one more than the
   last, or the net has an earlier record and either is type 5" */
static int is_out_of_order(const uint8_t *routes, size_t i)
{
    size_t last = 0;
    int earlier = 0;
    if (net_of(routes, i) == 0 || (i > 0 && net_of(routes, i) < net_of(routes, i - 1)))
        return 1;
    for (size_t j = 0; j < i; j++)
        if (net_of(routes, j) == net_of(routes, i)) {
            earlier = 1;
            last = j;
        }
    if (!earlier)
        return type_of(routes, i) == 4 && place_of(routes, i) != 0;
    if (type_of(routes, i) == 5 || type_of(routes, last) == 5)
        return 1;
    return place_of(routes, i) != place_of(routes, last) + 1;
}

/* "11, then in each record 13 before 22", 23 directly after 13 */
static struct wexxolin_check judge_records(const uint8_t *routes, size_t length)
{
    if (length % RECORD != 0)
        return refused(11, 0, 0);
    for (size_t i = 0; i < length / RECORD; i++) {
        if (type_of(routes, i) != 4 && type_of(routes, i) != 5)
            return refused(13, i, 0);
        for (size_t byte = 0; byte < RECORD; byte++)
            if (is_stray(routes, i, byte))
                return refused(23, i, byte);
        if (is_out_of_order(routes, i))
            return refused(22, i, 0);
    }
    return refused(0, 0, 0);
}

/* ---------- one net ---------- */

struct part {
    size_t first, count; /* records */
};

static struct part find_net(const uint8_t *routes, size_t records, unsigned net)
{
    struct part found = {0, 0};
    for (size_t i = records; i > 0; i--)
        if (net_of(routes, i - 1) == net) {
            found.first = i - 1;
            found.count++;
        }
    return found;
}

/* "A pinched vertex is one on the inside of the board with two diagonally opposite cells blocked and the other two free." */
static int is_pinched(const uint8_t *cells, size_t width, size_t height, size_t x, size_t y)
{
    if (x == 0 || y == 0 || x >= width || y >= height)
        return 0;
    int nw = cells[(y - 1) * width + x - 1], ne = cells[(y - 1) * width + x];
    int sw = cells[y * width + x - 1], se = cells[y * width + x];
    return (nw && se && !ne && !sw) || (ne && sw && !nw && !se);
}

/* "by net 25 wrong end, 26 vertex off the board, 27 leg of zero length or without sight", also "a leg that ends in a pinched vertex
   which isn't the path's last" */
static struct wexxolin_check judge_path(const uint8_t *cells, size_t width, size_t height, struct wexxolin_net net,
                                        const uint8_t *routes, struct part part)
{
    size_t last = part.first + part.count - 1;
    if (x_of(routes, part.first) != net.sx || y_of(routes, part.first) != net.sy)
        return refused(25, net.net, 0);
    if (x_of(routes, last) != net.gx || y_of(routes, last) != net.gy)
        return refused(25, net.net, 0);
    for (size_t i = part.first; i <= last; i++)
        if (x_of(routes, i) > width || y_of(routes, i) > height)
            return refused(26, net.net, place_of(routes, i));
    for (size_t i = part.first; i < last; i++) {
        size_t ax = x_of(routes, i), ay = y_of(routes, i), bx = x_of(routes, i + 1), by = y_of(routes, i + 1);
        int equal = ax == bx && ay == by;
        int seen = second_sight(cells, width * height, width, height, ax, ay, bx, by).sight == 1;
        int squeezed = i + 1 < last && is_pinched(cells, width, height, bx, by);
        if (equal || !seen || squeezed)
            return refused(27, net.net, place_of(routes, i));
    }
    return refused(0, 0, 0);
}

static uint64_t length_of(const uint8_t *routes, struct part part)
{
    uint64_t units = 0;
    for (size_t i = part.first; i + 1 < part.first + part.count; i++)
        units += second_length_between(x_of(routes, i), y_of(routes, i), x_of(routes, i + 1), y_of(routes, i + 1)).units;
    return units;
}

/* ---------- the check ---------- */

static int in_job(const uint8_t *job, size_t job_len, size_t nets, unsigned number)
{
    for (size_t k = 0; k < nets; k++)
        if (second_net(job, job_len, k).net == number)
            return 1;
    return 0;
}

/* "24 net missing or not in the job, lowest net first" */
static struct wexxolin_check judge_numbers(const uint8_t *job, size_t job_len, size_t nets, const uint8_t *routes, size_t records)
{
    for (unsigned number = 0; number < 256; number++)
        if (in_job(job, job_len, nets, number) != (find_net(routes, records, number).count > 0))
            return refused(24, number, 0);
    return refused(0, 0, 0);
}

/* "If all pass, it writes each net's length in units and number of legs, in file order, to two slices (0 for type 5)." */
static void measure(const uint8_t *job, size_t job_len, size_t nets, const uint8_t *routes, size_t records, uint64_t *units,
                    uint32_t *leg_counts)
{
    for (size_t k = 0; k < nets; k++) {
        struct part part = find_net(routes, records, (unsigned)second_net(job, job_len, k).net);
        int path_given = type_of(routes, part.first) == 4;
        units[k] = path_given ? length_of(routes, part) : 0;
        leg_counts[k] = path_given ? (uint32_t)(part.count - 1) : 0;
    }
}

struct wexxolin_check second_check(const uint8_t *job, size_t job_len, const uint8_t *routes, size_t routes_len,
                                   uint8_t *board, size_t board_len, uint64_t *g, size_t g_len,
                                   wexxolin_vertex *parents, size_t parents_len, uint8_t *marks, size_t marks_len,
                                   wexxolin_vertex *legs, size_t legs_len, uint64_t *units, size_t units_len,
                                   uint32_t *leg_counts, size_t leg_counts_len)
{
    static uint8_t cells[MOST_CELLS];
    static wexxolin_vertex path[MOST_VERTICES];
    struct wexxolin_board read = second_board(job, job_len, cells, MOST_CELLS);
    if (read.number != 0)
        return refused(read.number, read.place, read.second);
    struct wexxolin_check judged = judge_records(routes, routes_len);
    if (judged.number != 0)
        return judged;
    size_t records = routes_len / RECORD, vertices = (read.width + 1) * (read.height + 1);
    if (board_len < read.width * read.height)
        return refused(19, 0, 0);
    if (g_len < vertices || parents_len < vertices || marks_len < vertices || legs_len < vertices) /* item 8: "6 covers the new slice" */
        return refused(6, 0, 0);
    if (units_len < read.nets || leg_counts_len < read.nets)
        return refused(21, 0, 0);
    memcpy(board, cells, read.width * read.height); /* "24 to 28 leave the job's cells on the board slice" */
    judged = judge_numbers(job, job_len, read.nets, routes, records);
    for (size_t k = 0; judged.number == 0 && k < read.nets; k++) {
        struct wexxolin_net net = second_net(job, job_len, k);
        struct part part = find_net(routes, records, (unsigned)net.net);
        if (type_of(routes, part.first) == 4)
            judged = judge_path(cells, read.width, read.height, net, routes, part);
        else if (second_route(cells, read.width * read.height, read.width, read.height, net.sx, net.sy, net.gx, net.gy, g, g_len,
                              parents, parents_len, marks, marks_len, legs, legs_len, path, MOST_VERTICES).number == 0)
            judged = refused(28, net.net, 0);
    }
    if (judged.number != 0)
        return judged;
    measure(job, job_len, read.nets, routes, records, units, leg_counts);
    return (struct wexxolin_check){0, 0, 0, read.nets};
}
