/* wexxolin sight: what stops a leg first, on a board given cell by cell or on a job's board; there with the keepouts at fault. */
#include "command.h"

#include <string.h>

enum { WIDTH, HEIGHT, CELLS, AX, AY, BX, BY, WORDS };

static int put_stop(const wexxolin_sight_answer *stop)
{
    if (stop->number != WEXXOLIN_DONE)
        return refuse(stop->number, stop->place, stop->second);
    if (stop->kind == WEXXOLIN_CELL)
        put("cell %d %d\n", (int)stop->x, (int)stop->y);
    else if (stop->kind == WEXXOLIN_EDGE)
        put("edge %d %d %d %d\n", (int)stop->x, (int)stop->y, (int)stop->x2, (int)stop->y2);
    else if (stop->kind == WEXXOLIN_VERTEX)
        put("vertex %d %d\n", (int)stop->x, (int)stop->y);
    else
        put("clear\n");
    return DONE;
}

/* W H CELLS AX AY BX BY, where CELLS has a digit for each cell byte. The digits are turned into bytes where they stand. */
static int on_cells(char **words)
{
    uint64_t number[WORDS];
    for (int i = 0; i < WORDS; i++)
        if (i != CELLS && !whole_number(words[i], &number[i]))
            return complain("'%s' is no whole number", words[i]);
    size_t length = strlen(words[CELLS]);
    uint8_t *cells = (uint8_t *)words[CELLS];
    for (size_t i = 0; i < length; i++) {
        if (cells[i] < '0' || cells[i] > '9')
            return complain("the cells are digits, one for each: digit %zu is none", i + 1);
        cells[i] = (uint8_t)(cells[i] - '0');
    }
    wexxolin_sight_answer stop =
        wexxolin_sight(cells, length, number[WIDTH], number[HEIGHT], number[AX], number[AY], number[BX], number[BY]);
    return put_stop(&stop);
}

/* The records whose keepouts hold a cell, or that it lies outside the board. */
static void put_holders(const struct job *job, const struct board *board, int64_t x, int64_t y)
{
    if (x < 0 || y < 0 || x >= (int64_t)board->is.width || y >= (int64_t)board->is.height) {
        put("outside the board\n");
        return;
    }
    for (size_t record = 0; record < job->length / WEXXOLIN_RECORD_BYTES; record++) {
        const uint8_t *r = job->bytes + record * WEXXOLIN_RECORD_BYTES;
        if (r[0] != 2 || x < r[2] || y < r[3] || x >= r[4] || y >= r[5])
            continue;
        put("record %d holds cell %d %d", (int)record, (int)x, (int)y);
        put(*job->names[record] ? ": %s\n" : "%s\n", job->names[record]);
    }
}

/* The cells at both sides of an edge: left and right of a vertical one, above and below a horizontal one. */
static void put_sides(const struct job *job, const struct board *board, const wexxolin_sight_answer *stop)
{
    bool vertical = stop->x == stop->x2;
    int64_t x = (int64_t)(stop->x < stop->x2 ? stop->x : stop->x2), y = (int64_t)(stop->y < stop->y2 ? stop->y : stop->y2);
    put_holders(job, board, x - vertical, y - !vertical);
    put_holders(job, board, x, y);
}

/* The two blocked ones of the four cells round a pinched vertex, which is inside the board. */
static void put_pinching(const struct job *job, const struct board *board, const wexxolin_sight_answer *stop)
{
    for (size_t y = stop->y - 1; y <= stop->y; y++)
        for (size_t x = stop->x - 1; x <= stop->x; x++)
            if (board->cells[y * board->is.width + x])
                put_holders(job, board, (int64_t)x, (int64_t)y);
}

/* JOB AX,AY BX,BY */
static int on_job(char **words)
{
    static struct job job;
    static struct board board;
    uint64_t ax, ay, bx, by;
    if (!vertex_of(words[1], &ax, &ay) || !vertex_of(words[2], &bx, &by))
        return complain("'%s %s' are no two vertices such as 0,0 and 12,5", words[1], words[2]);
    int status = read_job(&job, words[0]);
    if (status == DONE)
        status = read_board(&board, &job);
    if (status != DONE)
        return status;
    size_t width = board.is.width, height = board.is.height;
    wexxolin_sight_answer stop = wexxolin_sight(board.cells, width * height, width, height, ax, ay, bx, by);
    status = put_stop(&stop);
    if (stop.kind == WEXXOLIN_CELL)
        put_holders(&job, &board, (int64_t)stop.x, (int64_t)stop.y);
    if (stop.kind == WEXXOLIN_EDGE)
        put_sides(&job, &board, &stop);
    if (stop.kind == WEXXOLIN_VERTEX)
        put_pinching(&job, &board, &stop);
    return status;
}

int run_sight(int count, char **words)
{
    if (count == WORDS)
        return on_cells(words);
    return count == 3 ? on_job(words) : complain("usage: wexxolin sight JOB AX,AY BX,BY | W H CELLS AX AY BX BY");
}
