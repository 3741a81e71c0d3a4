/* A board drawn in plain text, to a job and back. Rows of . (free) and # (blocked), all of one length; then a line for each net,
   'net NUMBER X,Y X,Y', with a name behind # if one is wanted. Empty lines may stand before, between and behind the two. */
#include "command.h"

#include <string.h>

enum { MOST_BYTE = 255 };

struct net {
    uint8_t number, ends[4]; /* start x, y; goal x, y */
    char name[NAME_ROOM];
};

struct drawn {
    size_t width, height, nets;
    bool rows_end;
    uint8_t cells[WEXXOLIN_MOST_CELLS]; /* row by row, width to a row */
    struct net net[MOST_NETS];
};

static int end_line(struct source *from)
{
    skip_blanks(from);
    if (!at_line_end(from))
        return wrong_here(from, "the line's end");
    next_byte(from);
    return DONE;
}

static int take_row(struct source *from, struct drawn *d)
{
    if (d->rows_end)
        return complain_at(&from->here, "a row after the end of the rows");
    if (d->height == WEXXOLIN_MOST_SIDE)
        return complain_at(&from->here, "a board has at most %d rows", WEXXOLIN_MOST_SIDE);
    uint8_t row[WEXXOLIN_MOST_SIDE];
    size_t width = 0;
    for (; from->byte == '.' || from->byte == '#'; next_byte(from)) {
        if (width == WEXXOLIN_MOST_SIDE)
            return complain_at(&from->here, "a row has at most %d cells", WEXXOLIN_MOST_SIDE);
        if (d->height > 0 && width == d->width)
            return complain_at(&from->here, "this row has more cells than the %zu of the first", d->width);
        row[width++] = from->byte == '#';
    }
    skip_blanks(from);
    if (from->byte == '.' || from->byte == '#')
        return complain_at(&from->here, "a blank inside a row");
    if (!at_line_end(from))
        return wrong_here(from, "a cell, . or #");
    if (d->height > 0 && width < d->width)
        return complain_at(&from->here, "this row has %zu cells and the first %zu", width, d->width);
    d->width = width;
    memcpy(d->cells + d->height++ * width, row, width);
    return end_line(from);
}

/* A number up to most; limit says in words what it may be. */
static int take_number(struct source *from, size_t most, const char *limit, uint8_t *to)
{
    if (from->byte < '0' || from->byte > '9')
        return wrong_here(from, "a number");
    struct place at = from->here;
    size_t number = 0;
    for (; from->byte >= '0' && from->byte <= '9'; next_byte(from))
        number = number > MOST_BYTE ? number : number * 10 + (size_t)(from->byte - '0');
    if (number > most)
        return complain_at(&at, "%s, at most %zu", limit, most);
    *to = (uint8_t)number;
    return DONE;
}

static int take_vertex(struct source *from, const struct drawn *d, uint8_t *to)
{
    skip_blanks(from);
    int status = take_number(from, d->width, "x is off the board", &to[0]);
    if (status == DONE && from->byte != ',')
        return wrong_here(from, "a comma");
    if (status != DONE)
        return status;
    next_byte(from);
    return take_number(from, d->height, "y is off the board", &to[1]);
}

/* The name behind #, if there is one. */
static void take_name(struct source *from, char *name)
{
    size_t length = 0;
    next_byte(from);
    skip_blanks(from);
    for (; !at_line_end(from); next_byte(from))
        if (length + 1 < NAME_ROOM && from->byte != '\r')
            name[length++] = from->byte == '\t' ? ' ' : (char)from->byte;
    name[length] = 0;
    trim_name(name);
}

static int take_net(struct source *from, struct drawn *d)
{
    if (from->byte == '.' || from->byte == '#')
        return complain_at(&from->here, "a row begins at column 1");
    for (const char *word = "net"; *word; word++, next_byte(from))
        if (from->byte != *word)
            return wrong_here(from, "a row of . and #, or 'net'");
    if (from->byte != ' ' && from->byte != '\t')
        return wrong_here(from, "a space behind 'net'");
    if (d->height == 0)
        return complain_at(&from->here, "a net before the board's rows");
    skip_blanks(from);
    struct place at = from->here;
    struct net net = { 0 };
    int status = take_number(from, MOST_BYTE, "a net's number", &net.number);
    size_t before = d->nets > 0 ? d->net[d->nets - 1].number : 0;
    if (status == DONE && net.number <= before)
        return complain_at(&at, "the net's number must be above %zu, %s", before, before ? "the one before" : "from 1 on");
    for (int end = 0; end < 2 && status == DONE; end++)
        status = take_vertex(from, d, net.ends + 2 * end);
    skip_blanks(from);
    if (status == DONE && from->byte == '#')
        take_name(from, net.name);
    if (status == DONE)
        d->net[d->nets++] = net; /* at most 255, since their numbers rise */
    return status == DONE ? end_line(from) : status;
}

static int read_drawn(struct drawn *d, const char *name)
{
    static struct source from;
    int status = open_source(&from, name);
    if (status != DONE)
        return status;
    for (next_byte(&from); status == DONE && from.byte >= 0;) {
        if (from.byte == '.' || from.byte == '#') {
            status = take_row(&from, d);
        } else {
            skip_blanks(&from);
            d->rows_end = d->rows_end || d->height > 0;
            status = at_line_end(&from) ? end_line(&from) : take_net(&from, d);
        }
    }
    if (status == DONE && !from.failed && d->height == 0)
        status = complain("%s has no row of . and #", from.here.name);
    return close_source(&from, status);
}

struct keepout {
    size_t left, top, right, bottom; /* right and bottom just past the last cell */
};

/* Whether every cell of a keepout is blocked; how many of them are in no keepout yet goes to fresh. */
static bool all_blocked(const struct drawn *d, const uint8_t *covered, struct keepout k, size_t *fresh)
{
    *fresh = 0;
    for (size_t y = k.top; y < k.bottom; y++)
        for (size_t x = k.left; x < k.right; x++) {
            if (!d->cells[y * d->width + x])
                return false;
            *fresh += !covered[y * d->width + x];
        }
    return true;
}

/* The keepout from a cell as far as it goes, first to the right or first downward; hands back how many new cells it holds. */
static size_t grow(const struct drawn *d, const uint8_t *covered, bool right_first, struct keepout *k)
{
    size_t fresh = 0, tried;
    for (int turn = 0; turn < 2; turn++) {
        bool right = (turn == 0) == right_first;
        for (;;) {
            struct keepout wider = *k;
            *(right ? &wider.right : &wider.bottom) += 1;
            if (wider.right > d->width || wider.bottom > d->height || !all_blocked(d, covered, wider, &tried))
                break;
            *k = wider;
        }
    }
    all_blocked(d, covered, *k, &fresh);
    return fresh;
}

/* Few keepouts for the blocked cells: from each cell that no keepout holds yet the one that goes to the right first, or the better
   of both. Hands back how many there are; those that have room in a job are stored. */
static size_t merge(const struct drawn *d, bool both, struct keepout *keepouts)
{
    static uint8_t covered[WEXXOLIN_MOST_CELLS];
    size_t count = 0;
    memset(covered, 0, sizeof covered);
    for (size_t i = 0; i < d->width * d->height; i++) {
        if (!d->cells[i] || covered[i])
            continue;
        size_t x = i % d->width, y = i / d->width;
        struct keepout wide = { x, y, x + 1, y + 1 }, high = wide;
        size_t fresh = grow(d, covered, true, &wide);
        if (both && fresh < grow(d, covered, false, &high))
            wide = high;
        for (size_t row = wide.top; row < wide.bottom; row++)
            memset(covered + row * d->width + wide.left, 1, wide.right - wide.left);
        if (count < MOST_RECORDS)
            keepouts[count] = wide;
        count++;
    }
    return count;
}

static void add_record(struct job *job, const uint8_t record[WEXXOLIN_RECORD_BYTES], const char *name)
{
    memcpy(job->names[job->length / WEXXOLIN_RECORD_BYTES], name, strlen(name) + 1);
    memcpy(job->bytes + job->length, record, WEXXOLIN_RECORD_BYTES);
    job->length += WEXXOLIN_RECORD_BYTES;
}

/* The records of a drawn board: the board, its keepouts, its nets. */
static int make_job(struct job *job, const struct drawn *d)
{
    static struct keepout tried[2][MOST_RECORDS];
    size_t wide = merge(d, false, tried[0]), better = merge(d, true, tried[1]);
    const struct keepout *keepouts = tried[better < wide];
    size_t count = better < wide ? better : wide, records = 1 + count + d->nets;
    if (records > MOST_RECORDS)
        return complain("the drawing needs %zu records (1 board, %zu keepouts, %zu nets), and a job has room for %d", records,
                        count, d->nets, MOST_RECORDS);
    add_record(job, (uint8_t[8]){ 1, 0, (uint8_t)d->width, (uint8_t)d->height }, "board");
    for (size_t i = 0; i < count; i++) {
        struct keepout k = keepouts[i];
        add_record(job, (uint8_t[8]){ 2, 0, (uint8_t)k.left, (uint8_t)k.top, (uint8_t)k.right, (uint8_t)k.bottom }, "");
    }
    for (size_t i = 0; i < d->nets; i++) {
        const struct net *net = &d->net[i];
        add_record(job, (uint8_t[8]){ 3, net->number, net->ends[0], net->ends[1], net->ends[2], net->ends[3] }, net->name);
    }
    return DONE;
}

static void put_hex(const struct job *job)
{
    for (size_t at = 0; at < job->length; at++) {
        const char *name = job->names[at / WEXXOLIN_RECORD_BYTES];
        put("%02x", job->bytes[at]);
        if (at % WEXXOLIN_RECORD_BYTES == WEXXOLIN_RECORD_BYTES - 1)
            put(*name ? "   # %s\n" : "%s\n", name);
        else if (at % 2 == 1)
            put(" ");
    }
}

/* wexxolin job [--hex] [TEXT] */
int run_job(int count, char **words)
{
    static struct drawn drawn;
    static struct job job;
    static struct board board;
    const char *name = NULL;
    bool hex = false;
    int names = 0;
    for (int i = 0; i < count; i++) {
        if (!strcmp(words[i], "--hex"))
            hex = true;
        else if (names++ == 0)
            name = words[i];
    }
    if (names > 1)
        return complain("wexxolin job takes one drawing, not %d", names);
    int status = read_drawn(&drawn, name);
    if (status == DONE)
        status = make_job(&job, &drawn);
    if (status == DONE)
        status = read_board(&board, &job); /* the library has the last word on every job */
    if (status != DONE)
        return status;
    if (hex)
        put_hex(&job);
    else
        put_bytes(job.bytes, job.length);
    return DONE;
}

/* wexxolin text [JOB] */
int run_text(int count, char **words)
{
    static struct job job;
    static struct board board;
    int status = read_job(&job, count > 0 ? words[0] : NULL);
    if (status == DONE)
        status = read_board(&board, &job);
    if (status != DONE)
        return status;
    for (size_t i = 0; i < board.is.width * board.is.height; i++) {
        put_bytes(board.cells[i] ? "#" : ".", 1);
        if ((i + 1) % board.is.width == 0)
            put_bytes("\n", 1);
    }
    for (size_t index = 0; index < board.is.nets; index++) {
        wexxolin_net_answer net = wexxolin_net(job.bytes, job.length, index);
        const char *name = net_name(&job, &board, index);
        put("net %d %d,%d %d,%d", (int)net.net, (int)net.sx, (int)net.sy, (int)net.gx, (int)net.gy);
        put(*name ? "   # %s\n" : "%s\n", name);
    }
    return DONE;
}
