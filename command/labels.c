/* Where the nets' numbers and the keepouts' names go: each to the best of a few places, by what stands there already. */
#include "picture.h"

#include <math.h>
#include <stdio.h>
#include <string.h>

enum { TAG_HIGH = 13, MOST_NAMES = 64, MOST_NUMBERED = 60 };

/* What has been placed so far. */
struct labels {
    struct box box[2 * MOST_NETS];
    size_t count;
};

static bool overlap(struct box a, struct box b)
{
    return a.x < b.x + b.w && b.x < a.x + a.w && a.y < b.y + b.h && b.y < a.y + a.h;
}

static int hits(const struct labels *placed, struct box box)
{
    int count = 0;
    for (size_t i = 0; i < placed->count; i++)
        count += overlap(box, placed->box[i]);
    return count;
}

/* A keepout's name in its middle, along its longer side if it is too long; moved aside from names that stand there. */
static void put_keepout_name(const struct frame *f, const uint8_t *record, const char *name, struct labels *placed)
{
    static const double aside[] = { 0, 1.3, -1.3, 2.6, -2.6 };
    double wide = (record[4] - record[2]) * f->cell, high = (record[5] - record[3]) * f->cell, size = 11;
    bool turned = high > wide && long_as(name, size) > wide - 4;
    double room = (turned ? high : wide) - 4, across = turned ? wide : high;
    size = fmin(size, size * room / long_as(name, size));
    for (int i = 0; i < 5 && size >= 6.5 && placed->count < MOST_NAMES; i++) {
        double move = aside[i] * size, length = long_as(name, size);
        double x = at_x(f, record[2]) + wide / 2 + (turned ? move : 0), y = at_y(f, record[3]) + high / 2 + (turned ? 0 : move);
        struct box box = { x - (turned ? size : length) / 2, y - (turned ? length : size) / 2, turned ? size : length,
                           turned ? length : size };
        if (fabs(move) + size * 0.55 > across / 2 || hits(placed, box))
            continue;
        placed->box[placed->count++] = box;
        put("<g transform='translate(%.1f %.1f)%s'>", x, y, turned ? " rotate(-90)" : "");
        put_text(0, size * 0.35, size, on_blocked, "text-anchor='middle'", name);
        put("</g>\n");
        return;
    }
}

void put_keepout_names(const struct frame *f)
{
    static struct labels placed;
    const struct job *job = f->p->job;
    for (size_t at = 0; at < job->length; at += WEXXOLIN_RECORD_BYTES)
        if (job->bytes[at] == 2 && *job->names[at / WEXXOLIN_RECORD_BYTES])
            put_keepout_name(f, job->bytes + at, job->names[at / WEXXOLIN_RECORD_BYTES], &placed);
}

/* How bad a place for a net's number is: off the board, on other numbers, on ends. */
static double badness(const struct frame *f, struct box tag, const struct labels *placed)
{
    double bad = tag.x < LEFT || tag.y < TOP || tag.x + tag.w > f->right || tag.y + tag.h > f->bottom ? 0.5 : 0;
    bad += tag.x < 2 || tag.y < 70 ? 8 : 0;
    bad += 4 * hits(placed, tag);
    for (const struct trace *net = f->p->net; net < f->p->net + f->p->nets; net++) {
        struct point ends[2] = { net->start, net->goal };
        for (int e = 0; e < 2 && net->shown; e++) {
            struct box end = { at_x(f, ends[e].x) - f->end, at_y(f, ends[e].y) - f->end, 2 * f->end, 2 * f->end };
            bad += overlap(tag, end) ? 3 : 0;
        }
    }
    return bad;
}

static void put_tag(const struct frame *f, size_t index, struct box tag, struct labels *placed)
{
    char words[16];
    snprintf(words, sizeof words, "%d", f->p->net[index].number);
    placed->box[placed->count++] = tag;
    put("<rect x='%.1f' y='%.1f' width='%.1f' height='%.1f' rx='2.5' fill='%s' stroke='%s' stroke-width='1.2'/>\n", tag.x, tag.y,
        tag.w, tag.h, paper, colour_of(index));
    put_text(tag.x + tag.w / 2, tag.y + 10, 10, ink, "text-anchor='middle' font-weight='bold'", words);
}

static struct box tag_at(const struct trace *net, double x, double y)
{
    double wide = net->number < 10 ? 12.2 : net->number < 100 ? 18.4 : 24.6;
    return (struct box){ x - wide / 2, y - TAG_HIGH / 2.0, wide, TAG_HIGH };
}

/* Whether a place lies in the direction of the net's first leg. */
static bool on_first_leg(const struct frame *f, const struct trace *net, double across, double down)
{
    if (net->vertices < 2)
        return false;
    struct point a = f->p->points[net->first], b = f->p->points[net->first + 1];
    double dx = b.x - a.x, dy = b.y - a.y;
    return (across * dx + down * dy) / sqrt((across * across + down * down) * (dx * dx + dy * dy)) > 0.7;
}

/* A net's number beside its start, in the best of eight places. */
static void put_start_number(const struct frame *f, size_t index, struct labels *placed)
{
    static const int sides[8][2] = { { -1, -1 }, { 1, -1 }, { -1, 1 }, { 1, 1 }, { 0, -1 }, { 0, 1 }, { -1, 0 }, { 1, 0 } };
    const struct trace *net = &f->p->net[index];
    double sx = at_x(f, net->start.x), sy = at_y(f, net->start.y), least = 1e9;
    struct box best = tag_at(net, sx, sy);
    for (int i = 0; i < 8; i++) {
        double away = sides[i][0] && sides[i][1] ? 0.6 : 1.1;
        double across = sides[i][0] * (best.w / 2 + f->end * away + 1), down = sides[i][1] * (TAG_HIGH / 2.0 + f->end * away + 1);
        struct box tag = tag_at(net, sx + across, sy + down);
        double bad = badness(f, tag, placed) + (on_first_leg(f, net, across, down) ? 2 : 0);
        if (bad < least) {
            least = bad;
            best = tag;
        }
    }
    put_tag(f, index, best, placed);
}

/* How far a point is from the leg between two vertices. */
static double distance(const struct frame *f, double x, double y, struct point a, struct point b)
{
    double ax = at_x(f, a.x), ay = at_y(f, a.y), dx = at_x(f, b.x) - ax, dy = at_y(f, b.y) - ay;
    double share = fmin(1, fmax(0, ((x - ax) * dx + (y - ay) * dy) / (dx * dx + dy * dy)));
    return hypot(x - ax - share * dx, y - ay - share * dy);
}

/* How many legs of other nets run under a place. */
static int lines_under(const struct frame *f, size_t index, double x, double y)
{
    int count = 0;
    for (size_t n = 0; n < f->p->nets; n++) {
        const struct trace *net = &f->p->net[n];
        for (size_t i = 1; n != index && net->shown && i < net->vertices; i++) {
            const struct point *at = f->p->points + net->first + i;
            count += distance(f, x, y, at[-1], at[0]) < TAG_HIGH;
        }
    }
    return count;
}

/* How bad a place on a net's own line is: as any place, and over other lines, beside the start, or on a short leg. */
static double line_badness(const struct frame *f, size_t index, struct box tag, double leg, const struct labels *placed)
{
    const struct trace *net = &f->p->net[index];
    double x = tag.x + tag.w / 2, y = tag.y + tag.h / 2, away = hypot(x - at_x(f, net->start.x), y - at_y(f, net->start.y));
    return badness(f, tag, placed) + lines_under(f, index, x, y) + (away < 100 ? 3 : 0) + 1 - fmin(1, leg / 400);
}

/* A net's number once more on its line, at the best of five places of each leg, if one is good. */
static void put_line_number(const struct frame *f, size_t index, struct labels *placed)
{
    enum { PLACES = 5 };
    const struct trace *net = &f->p->net[index];
    struct box best = { 0 };
    double least = 3;
    for (size_t i = 1; i < net->vertices; i++) {
        struct point a = f->p->points[net->first + i - 1], b = f->p->points[net->first + i];
        double dx = at_x(f, b.x) - at_x(f, a.x), dy = at_y(f, b.y) - at_y(f, a.y);
        for (int k = 1; k <= PLACES; k++) {
            double share = (double)k / (PLACES + 1);
            struct box tag = tag_at(net, at_x(f, a.x) + share * dx, at_y(f, a.y) + share * dy);
            double bad = line_badness(f, index, tag, hypot(dx, dy), placed) + fabs(share - 0.5);
            if (bad < least) {
                least = bad;
                best = tag;
            }
        }
    }
    if (best.w > 0)
        put_tag(f, index, best, placed);
}

/* The number of each net at its start, and on long lines once more unless there are very many nets. */
void put_numbers(const struct frame *f)
{
    static struct labels placed;
    for (size_t i = 0; i < f->p->nets; i++)
        if (f->p->net[i].shown)
            put_start_number(f, i, &placed);
    for (size_t i = 0; i < f->p->nets && f->shown <= MOST_NUMBERED; i++)
        if (f->p->net[i].shown)
            put_line_number(f, i, &placed);
}
