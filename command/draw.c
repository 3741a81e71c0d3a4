/* wexxolin draw [--expanded] [--net N] [JOB [ROUTES]]: the picture's nets and paths, from the library or from a file of lines. */
#include "picture.h"

#include <stdio.h>
#include <stdlib.h>
#include <string.h>

static struct picture picture;

static bool add_point(struct picture *p, uint64_t x, uint64_t y)
{
    if (p->count == p->room) {
        size_t room = p->room ? 2 * p->room : 4096;
        struct point *points = realloc(p->points, room * sizeof *points);
        if (!points)
            return false;
        p->points = points;
        p->room = room;
    }
    p->points[p->count++] = (struct point){ (uint8_t)x, (uint8_t)y };
    return true;
}

/* The route of each net that is shown, by the library. */
static int route_all(struct picture *p)
{
    static struct search search;
    size_t line = p->board->is.width + 1;
    for (size_t index = 0; index < p->nets; index++) {
        struct trace *net = &p->net[index];
        if (!net->shown)
            continue;
        route_net(&search, p->job, p->board, index);
        net->state = search.is.number == WEXXOLIN_DONE ? HAS_PATH : NO_PATH;
        net->counted = true;
        net->units = search.is.units;
        net->expansions = search.is.expansions;
        net->tests = search.is.tests;
        net->first = p->count;
        net->vertices = search.is.vertices;
        for (size_t i = 0; i < net->vertices; i++)
            if (!add_point(p, search.path[i] % line, search.path[i] / line))
                return complain("no memory for the paths");
    }
    return DONE;
}

/* The next word of a line of routes: no longer than a number of 20 digits. */
static int take_word(struct source *from, char word[32], struct place *at)
{
    size_t length = 0;
    if (from->byte == ' ')
        next_byte(from);
    *at = from->here;
    for (; !at_line_end(from) && from->byte != ' ' && from->byte != '\r' && length < 31; next_byte(from))
        word[length++] = (char)from->byte;
    word[length] = 0;
    return length == 31 ? complain_at(at, "no word of a route's line") : DONE;
}

static int want_word(struct source *from, const char *wanted)
{
    char word[32];
    struct place at;
    int status = take_word(from, word, &at);
    return status == DONE && strcmp(word, wanted) ? complain_at(&at, "'%s' where '%s' should stand", word, wanted) : status;
}

static int want_number(struct source *from, uint64_t *number)
{
    char word[32];
    struct place at;
    int status = take_word(from, word, &at);
    return status == DONE && !whole_number(word, number) ? complain_at(&at, "'%s' where a number should stand", word) : status;
}

/* The vertices behind 'at', to the line's end. */
static int take_vertices(struct picture *p, struct trace *net, struct source *from)
{
    int status = want_word(from, "at");
    while (status == DONE && from->byte == ' ') {
        char word[32];
        struct place at;
        uint64_t x = 0, y = 0;
        status = take_word(from, word, &at);
        if (status == DONE && !vertex_of(word, &x, &y))
            return complain_at(&at, "'%s' where a vertex such as 12,5 should stand", word);
        if (x > p->board->is.width || y > p->board->is.height)
            return complain_at(&at, "the vertex %s is off this job's board", word);
        if (status == DONE && !add_point(p, x, y))
            return complain("no memory for the paths");
        net->vertices++;
    }
    return status;
}

/* The net of a line, by its number. */
static int take_net(struct picture *p, struct source *from, struct trace **net)
{
    uint64_t number = 0;
    struct place at = from->here;
    int status = want_word(from, "net");
    if (status == DONE)
        status = want_number(from, &number);
    for (*net = p->net; status == DONE && *net < p->net + p->nets; ++*net)
        if ((uint64_t)(*net)->number == number)
            return DONE;
    return status == DONE ? complain_at(&at, "this job has no net %llu", (unsigned long long)number) : status;
}

/* A line as the route program prints it. */
static int take_line(struct picture *p, struct source *from)
{
    char word[32];
    struct place at;
    struct trace *net;
    int status = take_net(p, from, &net);
    if (status != DONE || (status = take_word(from, word, &at)) != DONE)
        return status;
    if (strcmp(word, "path") && strcmp(word, "none"))
        return complain_at(&at, "'%s' where 'path' or 'none' should stand", word);
    net->state = word[0] == 'p' ? HAS_PATH : NO_PATH;
    net->counted = true;
    net->first = p->count;
    net->vertices = 0;
    if (net->state == HAS_PATH)
        status = want_number(from, &net->units);
    if (status == DONE && (status = want_word(from, "expanded")) == DONE)
        status = want_number(from, &net->expansions);
    if (status == DONE && (status = want_word(from, "tests")) == DONE)
        status = want_number(from, &net->tests);
    if (status == DONE && net->state == HAS_PATH)
        status = take_vertices(p, net, from);
    skip_blanks(from);
    return status == DONE && !at_line_end(from) ? wrong_here(from, "the line's end") : status;
}

/* The routes of a route file; each net must be one of the job's, each point on its board. */
static int take_records(struct picture *p, const struct file *file)
{
    static struct routes routes;
    int status = take_routes(&routes, file);
    for (size_t i = 0, at = 0; status == DONE && i < routes.is.nets; i++) {
        struct trace *net = p->net;
        while (net < p->net + p->nets && net->number != routes.nets[i])
            net++;
        if (net == p->net + p->nets)
            return complain("%s: this job has no net %d", file->name, (int)routes.nets[i]);
        net->state = routes.counts[i] ? HAS_PATH : NO_PATH;
        net->counted = false;
        net->first = p->count;
        net->vertices = routes.counts[i];
        for (size_t end = at + routes.counts[i]; at < end; at++) {
            if (routes.xs[at] > p->board->is.width || routes.ys[at] > p->board->is.height)
                return complain("%s: the vertex %d,%d of net %d is off this job's board", file->name, (int)routes.xs[at],
                                (int)routes.ys[at], net->number);
            if (!add_point(p, routes.xs[at], routes.ys[at]))
                return complain("no memory for the paths");
        }
    }
    return status;
}

/* The lines of the route program, or records, as bytes or hex. */
static int read_routes(struct picture *p, const char *name)
{
    static struct file file;
    static struct source from;
    int status = read_file(&file, name);
    if (status != DONE)
        return status;
    if (!file.text || (file.bytes[0] != 'n' && file.bytes[0] != 'r')) {
        status = file.text ? hex_bytes(&file) : DONE;
        return status == DONE ? take_records(p, &file) : status;
    }
    open_bytes(&from, file.name, file.bytes, file.length);
    for (next_byte(&from); status == DONE && from.byte >= 0; next_byte(&from))
        status = take_line(p, &from);
    return status;
}

static void take_nets(struct picture *p)
{
    p->nets = p->board->is.nets;
    for (size_t i = 0; i < p->nets; i++) {
        wexxolin_net_answer net = wexxolin_net(p->job->bytes, p->job->length, i);
        struct trace *to = &p->net[i];
        to->number = (int)net.net;
        to->name = net_name(p->job, p->board, i);
        to->start = (struct point){ (uint8_t)net.sx, (uint8_t)net.sy };
        to->goal = (struct point){ (uint8_t)net.gx, (uint8_t)net.gy };
        to->shown = true;
    }
}

/* The file's name without folder and ending, as words. */
static void take_title(struct picture *p, const char *name)
{
    if (!name || !strcmp(name, "-"))
        name = "Job";
    const char *slash = strrchr(name, '/');
    snprintf(p->title, sizeof p->title, "%s", slash ? slash + 1 : name);
    char *dot = strrchr(p->title, '.');
    if (dot && dot > p->title)
        *dot = 0;
    for (char *at = p->title; *at; at++)
        if (*at == '-' || *at == '_')
            *at = ' ';
    if (p->title[0] >= 'a' && p->title[0] <= 'z')
        p->title[0] = (char)(p->title[0] - 'a' + 'A');
    trim_name(p->title);
}

/* Only this net is shown; it must be one of the job's. */
static int show_only(struct picture *p, const char *word)
{
    uint64_t number;
    bool found = false;
    if (!whole_number(word, &number))
        return complain("--net takes a net's number, and '%s' is none", word);
    for (struct trace *net = p->net; net < p->net + p->nets; net++) {
        net->shown = (uint64_t)net->number == number;
        found = found || net->shown;
    }
    return found ? DONE : complain("this job has no net %s", word);
}

struct wanted {
    const char *job, *routes, *net;
};

static int take_words(struct wanted *w, int count, char **words)
{
    int names = 0;
    for (int i = 0; i < count; i++) {
        if (!strcmp(words[i], "--expanded"))
            picture.expanded = true;
        else if (!strcmp(words[i], "--net") && i + 1 < count)
            w->net = words[++i];
        else if (!strcmp(words[i], "--net"))
            return complain("--net takes a net's number");
        else
            *(names++ == 0 ? &w->job : &w->routes) = words[i];
    }
    if (names > 2)
        return complain("wexxolin draw takes a job and a file of routes, not %d files", names);
    if (names == 2 && !strcmp(w->job, "-") && !strcmp(w->routes, "-"))
        return complain("the job and its routes cannot both be standard input");
    return DONE;
}

int run_draw(int count, char **words)
{
    static struct job job;
    static struct board board;
    struct wanted wanted = { 0 };
    struct sharing sharing = { 0 };
    int status = take_words(&wanted, count, words);
    if (status == DONE)
        status = read_job(&job, wanted.job);
    if (status == DONE)
        status = read_board(&board, &job);
    if (status != DONE)
        return status;
    picture.job = &job;
    picture.board = &board;
    take_title(&picture, wanted.job);
    take_nets(&picture);
    if (wanted.net)
        status = show_only(&picture, wanted.net);
    if (status == DONE)
        status = wanted.routes ? read_routes(&picture, wanted.routes) : route_all(&picture);
    if (status == DONE && !find_shared(&picture, &sharing))
        status = complain("no memory for the paths");
    if (status == DONE)
        put_picture(&picture, &sharing);
    return status;
}
