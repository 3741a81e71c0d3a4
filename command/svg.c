/* The picture as SVG. A net is told by its colour, by the shape of its ends and by its number at the start; the legs that nets
   share are dashed in turn; what sets a line off from others is cut to the free cells, so that no keepout looks bitten. */
#include "picture.h"

#include <math.h>
#include <stdio.h>
#include <string.h>

static const char *const colours[] = { "#d1495b", "#00798c", "#e08e00", "#5f4bb6", "#3a8f3a", "#2e6fd8",
                                       "#a8447f", "#8a5a2b", "#10a39b", "#c2452d", "#6b7a12", "#7d4fc9" };
const char paper[] = "#ffffff", ink[] = "#2b303a", on_blocked[] = "#e8eaee";
static const char free_cell[] = "#fbfaf5", grid[] = "#e9e5d8", grid_5[] = "#d3cdb9", blocked[] = "#4b5361", outline[] = "#6a7382",
                  faint[] = "#6d737f", warning[] = "#b00020";

enum { COLOURS = sizeof colours / sizeof colours[0], SHAPES = 4, ROW = 46, SHORT_ROW = 20 };

double at_x(const struct frame *f, int x)
{
    return LEFT + x * f->cell;
}

double at_y(const struct frame *f, int y)
{
    return TOP + y * f->cell;
}

const char *colour_of(size_t index)
{
    return colours[index % COLOURS];
}

static bool same_point(struct point a, struct point b)
{
    return a.x == b.x && a.y == b.y;
}

/* How many bytes the letter at words has in UTF-8; 0 if it is none. */
static size_t letter_bytes(const char *words)
{
    unsigned char first = (unsigned char)*words;
    size_t bytes = first < 0x80 ? 1 : first < 0xc2 ? 0 : first < 0xe0 ? 2 : first < 0xf0 ? 3 : first < 0xf5 ? 4 : 0;
    for (size_t i = 1; i < bytes; i++)
        if ((words[i] & 0xc0) != 0x80)
            return 0;
    return bytes;
}

/* A name of the job's as SVG has it; a byte that is no letter becomes a question mark. */
static void put_words(const char *words)
{
    for (size_t bytes; *words; words += bytes ? bytes : 1) {
        bytes = letter_bytes(words);
        if (*words == '&')
            put("&amp;");
        else if (*words == '<')
            put("&lt;");
        else
            put_bytes(bytes ? words : "?", bytes ? bytes : 1);
    }
}

void put_text(double x, double y, double size, const char *colour, const char *more, const char *words)
{
    put("<text x='%.1f' y='%.1f' font-size='%.3g' fill='%s' %s>", x, y, size, colour, more);
    put_words(words);
    put("</text>\n");
}

/* How long words are in pixels, about. */
double long_as(const char *words, double size)
{
    size_t letters = 0;
    for (; *words; words++)
        letters += (*words & 0xc0) != 0x80;
    return 0.56 * size * (double)letters;
}

static void put_lines_of_grid(const struct frame *f, bool five)
{
    put("<path d='");
    for (int x = 0; x <= f->width; x++)
        if ((x % 5 == 0) == five)
            put("M%.0f %dV%d", at_x(f, x), TOP, f->bottom);
    for (int y = 0; y <= f->height; y++)
        if ((y % 5 == 0) == five)
            put("M%d %.0fH%d", LEFT, at_y(f, y), f->right);
    put("' stroke='%s' shape-rendering='crispEdges'/>\n", five ? grid_5 : grid);
}

/* The cells of one kind as a path's data, a piece for each run in a row. */
static void put_runs(const struct frame *f, int kind)
{
    const uint8_t *cells = f->p->board->cells;
    for (int y = 0; y < f->height; y++)
        for (int x = 0, run; x < f->width; x = run) {
            for (run = x; run < f->width && cells[y * f->width + run] == cells[y * f->width + x]; run++)
                ;
            if (cells[y * f->width + x] == kind)
                put("M%.0f %.0fh%dv%dh%dz", at_x(f, x), at_y(f, y), (run - x) * f->cell, f->cell, (x - run) * f->cell);
        }
}

/* The blocked cells, and the edges of the keepouts one by one. */
static void put_keepouts(const struct frame *f)
{
    const struct job *job = f->p->job;
    put("<path d='");
    put_runs(f, 1);
    put("' fill='%s' shape-rendering='crispEdges'/>\n<path d='", blocked);
    for (size_t at = 0; at < job->length; at += WEXXOLIN_RECORD_BYTES) {
        const uint8_t *r = job->bytes + at;
        if (r[0] == 2)
            put("M%.0f %.0fh%dv%dh%dz", at_x(f, r[2]), at_y(f, r[3]), (r[4] - r[2]) * f->cell, (r[5] - r[3]) * f->cell,
                (r[2] - r[4]) * f->cell);
    }
    put("' fill='none' stroke='%s' stroke-width='0.8'/>\n", outline);
}

static void put_scale(const struct frame *f)
{
    char words[16];
    int every = f->width > 10 || f->height > 10 ? 5 : 1;
    for (int x = 0; x <= f->width; x += every) {
        snprintf(words, sizeof words, "%d", x);
        put_text(at_x(f, x), TOP - 9, 11, faint, "text-anchor='middle'", words);
    }
    for (int y = 0; y <= f->height; y += every) {
        snprintf(words, sizeof words, "%d", y);
        put_text(LEFT - 9, at_y(f, y) + 4, 11, faint, "text-anchor='end'", words);
    }
}

static void put_board(const struct frame *f)
{
    int wide = f->right - LEFT, high = f->bottom - TOP;
    put("<clipPath id='free'><path d='");
    put_runs(f, 0);
    put("'/></clipPath>\n<rect x='%d' y='%d' width='%d' height='%d' fill='%s'/>\n", LEFT, TOP, wide, high, free_cell);
    put_lines_of_grid(f, false);
    put_lines_of_grid(f, true);
    put_keepouts(f);
    put_keepout_names(f);
    put("<rect x='%d' y='%d' width='%d' height='%d' fill='none' stroke='%s' stroke-width='2.5'/>\n", LEFT, TOP, wide, high, ink);
    put_scale(f);
}

/* Whether a vertex inside the board is pinched: the library's sight says so of the leg across it. */
static bool is_pinched(const struct frame *f, size_t x, size_t y)
{
    size_t width = f->p->board->is.width, height = f->p->board->is.height;
    return wexxolin_sight(f->p->board->cells, width * height, width, height, x - 1, y, x + 1, y).kind == WEXXOLIN_VERTEX;
}

/* A ring with a bar: nothing passes. */
static void put_bar_sign(double x, double y, double r)
{
    put("<path d='M%.1f %.1fa%.2f %.2f 0 1 0 %.2f 0a%.2f %.2f 0 1 0 %.2f 0zh%.2f' fill='%s' stroke='%s' stroke-width='%.2f'/>\n",
        x - r, y, r, r, 2 * r, r, r, -2 * r, 2 * r, paper, warning, fmax(1, r * 0.42));
}

/* A sign at each pinched vertex; hands back how many there are. */
static size_t put_pinched(const struct frame *f)
{
    size_t count = 0;
    for (int y = 1; y < f->height; y++)
        for (int x = 1; x < f->width; x++)
            if (is_pinched(f, (size_t)x, (size_t)y)) {
                put_bar_sign(at_x(f, x), at_y(f, y), fmax(2.4, f->pen * 0.15));
                count++;
            }
    return count;
}

/* What each vertex was when a net's search ended. */
static void put_marks(const struct frame *f, size_t index)
{
    static struct search search;
    double r = fmax(2.2, f->pen * 0.13);
    route_net(&search, f->p->job, f->p->board, index);
    for (int v = 0; v < (f->width + 1) * (f->height + 1); v++) {
        bool expanded = search.marks[v] == 2;
        if (search.marks[v])
            put("<circle cx='%.1f' cy='%.1f' r='%.2f' fill='%s' fill-opacity='%s' stroke='%s' stroke-width='%s'/>\n",
                at_x(f, v % (f->width + 1)), at_y(f, v / (f->width + 1)), r, expanded ? colour_of(index) : paper,
                expanded ? "0.45" : "1", colour_of(index), expanded ? "0" : "1.3");
    }
}

static void put_polyline(const struct frame *f, const struct trace *net, const char *colour, double width, const char *more)
{
    put("<polyline points='");
    for (size_t i = 0; i < net->vertices; i++) {
        struct point at = f->p->points[net->first + i];
        put("%.1f,%.1f ", at_x(f, at.x), at_y(f, at.y));
    }
    put("' fill='none' stroke='%s' stroke-width='%.2f' ", colour, width);
    put("stroke-linejoin='round' stroke-linecap='round' %s/>\n", more);
}

/* A net's path: a pale band on the free cells, then the line, with a dot at each bend. */
static void put_path(const struct frame *f, size_t index)
{
    const struct trace *net = &f->p->net[index];
    if (net->vertices < 2)
        return;
    put_polyline(f, net, paper, f->line * 1.9, "clip-path='url(#free)'");
    put_polyline(f, net, colour_of(index), f->line, "");
    for (size_t i = 1; i + 1 < net->vertices; i++) {
        struct point at = f->p->points[net->first + i];
        put("<circle cx='%.1f' cy='%.1f' r='%.2f' fill='%s'/>\n", at_x(f, at.x), at_y(f, at.y), f->line * 0.9, colour_of(index));
    }
}

/* A shared step in dashes, each net's in turn; the turns go on from step to step along the line. */
static void put_shared(const struct frame *f, const struct shared *step)
{
    double dx = step->dx * f->cell, dy = step->dy * f->cell, length = sqrt(dx * dx + dy * dy);
    size_t k = step->sharers, dashes = (size_t)(length / fmax(5, f->pen * 0.36) + 0.5);
    if (dashes < k)
        dashes = k;
    size_t before = (size_t)(step->dx ? step->from.x / step->dx : step->from.y) * dashes;
    for (size_t i = 0; i < dashes; i++) {
        double from = (double)i / (double)dashes, to = (double)(i + 1) / (double)dashes;
        double x = at_x(f, step->from.x), y = at_y(f, step->from.y);
        put("<path d='M%.2f %.2fL%.2f %.2f' stroke='%s' stroke-width='%.2f'/>\n", x + from * dx, y + from * dy, x + to * dx,
            y + to * dy, colour_of(f->s->who[step->first + (before + i) % k]), f->line * 1.15);
    }
}

/* One of the shapes that ends have: disc, square, diamond, triangle. */
static void put_shape(size_t index, double x, double y, double r, const char *fill, const char *stroke, double width,
                      const char *more)
{
    switch ((index + index / COLOURS) % SHAPES) { /* colour and shape together are new for 48 nets */
    case 0: put("<circle cx='%.1f' cy='%.1f' r='%.2f'", x, y, r); break;
    case 1: put("<rect x='%.2f' y='%.2f' width='%.2f' height='%.2f'", x - r * 0.9, y - r * 0.9, r * 1.8, r * 1.8); break;
    case 2: put("<path d='M%.2f %.2fl%.2f %.2fl%.2f %.2fl%.2f %.2fz'", x, y - r * 1.25, r * 1.25, r * 1.25, -r * 1.25, r * 1.25,
                -r * 1.25, -r * 1.25); break;
    default: put("<path d='M%.2f %.2fL%.2f %.2fH%.2fz'", x, y - r * 1.25, x + r * 1.2, y + r * 0.85, x - r * 1.2);
    }
    put(" fill='%s' stroke='%s' stroke-width='%.2f' %s/>\n", fill, stroke, width, more);
}

static void put_cross(double x, double y, double r, const char *colour)
{
    put("<path d='M%.1f %.1fl%.1f %.1fm0 %.1fl%.1f %.1f' stroke='%s' stroke-width='%.2f'/>\n", x - r, y - r, 2 * r, 2 * r, -2 * r,
        -2 * r, 2 * r, colour, fmax(1.6, r * 0.45));
}

/* How large an end is drawn: the more ends of others are drawn over it, the larger, so that it shows behind them. */
static double end_size(const struct frame *f, size_t index, struct point at, bool goal)
{
    const struct trace *net = &f->p->net[index];
    int over = goal && same_point(net->start, at);
    for (size_t i = index + 1; i < f->p->nets; i++)
        if (f->p->net[i].shown)
            over += same_point(f->p->net[i].start, at) + same_point(f->p->net[i].goal, at);
    return f->end * (1 + 0.5 * (over < 3 ? over : 3));
}

/* The goal open, the start filled; a net without a path has a cross over both. */
static void put_ends(const struct frame *f, size_t index)
{
    const struct trace *net = &f->p->net[index];
    double sx = at_x(f, net->start.x), sy = at_y(f, net->start.y), gx = at_x(f, net->goal.x), gy = at_y(f, net->goal.y);
    double s = end_size(f, index, net->start, false), g = end_size(f, index, net->goal, true);
    put_shape(index, gx, gy, g, paper, colour_of(index), f->end * 0.5, "");
    put_shape(index, sx, sy, s * 0.95, paper, paper, f->end * 0.6, "clip-path='url(#free)'");
    put_shape(index, sx, sy, s * 0.95, colour_of(index), "none", 0, "");
    if (net->state == NO_PATH) {
        put_cross(gx, gy, g * 1.3, warning);
        put_cross(sx, sy, s * 1.3, warning);
    }
}

/* One net in the list beside the board. */
static void put_entry(const struct frame *f, size_t index, double x, double y, bool brief)
{
    const struct trace *net = &f->p->net[index];
    char words[NAME_ROOM + 96];
    put("<path d='M%.1f %.1fh26' stroke='%s' stroke-width='4' stroke-linecap='round'/>\n", x, y + 10, colour_of(index));
    put_shape(index, x, y + 10, 6, colour_of(index), paper, 1.5, "");
    if (net->state == NO_PATH)
        put_cross(x + 26, y + 10, 5, warning);
    snprintf(words, sizeof words, "net %d", net->number);
    put_text(x + 40, y + 11, 14, ink, "font-weight='bold'", words);
    double after = x + 48 + 8.2 * (double)strlen(words);
    if (net->state == HAS_PATH && !net->counted)
        snprintf(words, sizeof words, "%d leg%s", net->vertices > 0 ? (int)net->vertices - 1 : 0, net->vertices == 2 ? "" : "s");
    else if (net->state == HAS_PATH)
        snprintf(words, sizeof words, "%.3f cells, %d leg%s", (double)net->units / WEXXOLIN_UNITS_PER_CELL,
                 net->vertices > 0 ? (int)net->vertices - 1 : 0, net->vertices == 2 ? "" : "s");
    else
        snprintf(words, sizeof words, "%s", net->state == NO_PATH ? "no path" : "not routed");
    put_text(after, y + 11, 13, net->state == NO_PATH ? warning : ink, "", words);
    if (brief)
        return;
    if (net->counted)
        snprintf(words, sizeof words, "%llu expanded, %llu tests%s", (unsigned long long)net->expansions,
                 (unsigned long long)net->tests, *net->name ? " · " : "");
    else
        words[0] = 0;
    strncat(words, net->name, NAME_ROOM);
    put_text(x + 40, y + 28, 12, faint, "", words);
}

/* The list of nets beside the board, in as many columns as it takes, each as wide as its longest name. Hands back how wide it is;
   shows it only if told to, because the picture's width comes first. */
static double put_list(const struct frame *f, double bottom, bool show)
{
    bool brief = f->shown > 24;
    int high = brief ? SHORT_ROW : ROW, rows = (int)((bottom - TOP) / high), row = 0;
    double left = 0, widest = 0;
    for (size_t i = 0; i < f->p->nets; i++) {
        if (!f->p->net[i].shown)
            continue;
        if (row > 0 && row >= rows) {
            left += widest;
            widest = 0;
            row = 0;
        }
        if (show)
            put_entry(f, i, f->right + 40 + left, TOP + high * row, brief);
        row++;
        widest = fmax(widest, brief ? 250 : fmax(252, 220 + long_as(f->p->net[i].name, 12)));
    }
    return left + widest;
}

static double put_key_words(double x, double y, const char *words)
{
    put_text(x, y, 12, faint, "", words);
    return x + long_as(words, 12) + 26;
}

/* What the signs mean, in one line under the board; hands back where it ends. */
static double put_key(const struct frame *f, double y)
{
    double x = LEFT + 6;
    put_shape(0, x, y - 4, 5.5, faint, "none", 0, "");
    x = put_key_words(x + 12, y, "start, with the net's number");
    put_shape(0, x, y - 4, 5, paper, faint, 2.6, "");
    x = put_key_words(x + 12, y, "goal");
    put("<rect x='%.1f' y='%.1f' width='12' height='12' fill='%s'/>\n", x - 6, y - 10, blocked);
    x = put_key_words(x + 12, y, "blocked");
    if (f->no_paths > 0) {
        put_shape(0, x, y - 4, 5, paper, faint, 2.6, "");
        put_cross(x, y - 4, 6.5, warning);
        x = put_key_words(x + 13, y, "no path");
    }
    if (f->pinched > 0) {
        put_bar_sign(x, y - 4, 5);
        x = put_key_words(x + 12, y, "pinched: no trace passes");
    }
    for (int i = 0; i < 4 && f->s->steps > 0; i++)
        put("<path d='M%.1f %.1fh7' stroke='%s' stroke-width='4'/>\n", x - 6 + 7 * i, y - 4, colours[i % 2]);
    if (f->s->steps > 0)
        x = put_key_words(x + 28, y, "nets on the same line, in turn");
    if (f->p->expanded) {
        put("<circle cx='%.1f' cy='%.1f' r='4' fill='%s' fill-opacity='0.45'/>\n", x, y - 4, ink);
        x = put_key_words(x + 9, y, "expanded");
        put("<circle cx='%.1f' cy='%.1f' r='4' fill='%s' stroke='%s' stroke-width='1.3'/>\n", x, y - 4, paper, ink);
        x = put_key_words(x + 9, y, "open");
    }
    return x;
}

static void put_nets(const struct frame *f)
{
    for (size_t i = 0; i < f->p->nets; i++)
        if (f->p->expanded && f->p->net[i].shown)
            put_marks(f, i);
    for (size_t i = 0; i < f->p->nets; i++)
        if (f->p->net[i].shown)
            put_path(f, i);
    for (size_t i = 0; i < f->s->steps; i++)
        put_shared(f, &f->s->step[i]);
    for (size_t i = 0; i < f->p->nets; i++)
        if (f->p->net[i].shown)
            put_ends(f, i);
}

static struct frame frame_of(const struct picture *p, const struct sharing *s)
{
    struct frame f = { .p = p, .s = s, .width = (int)p->board->is.width, .height = (int)p->board->is.height };
    int most = 960 / f.width < 720 / f.height ? 960 / f.width : 720 / f.height;
    f.cell = most < 11 ? 11 : most > 96 ? 96 : most;
    f.pen = f.cell < 34 ? f.cell : 34;
    f.line = fmax(2.8, f.pen * 0.14);
    f.end = fmax(3.6, f.pen * 0.22);
    f.right = LEFT + f.width * f.cell;
    f.bottom = TOP + f.height * f.cell;
    for (size_t i = 0; i < p->nets; i++) {
        f.shown += p->net[i].shown;
        f.no_paths += p->net[i].shown && p->net[i].state == NO_PATH;
    }
    return f;
}

static void put_head(const struct frame *f)
{
    char words[160];
    size_t keepouts = f->p->job->length / WEXXOLIN_RECORD_BYTES - 1 - f->p->nets, paths = 0;
    for (size_t i = 0; i < f->p->nets; i++)
        paths += f->p->net[i].shown && f->p->net[i].state == HAS_PATH;
    put_text(LEFT, 38, 20, ink, "font-weight='bold'", f->p->title);
    snprintf(words, sizeof words, "%d by %d cells, %zu keepout%s, %zu of %zu nets with a path", f->width, f->height, keepouts,
             keepouts == 1 ? "" : "s", paths, f->shown);
    put_text(LEFT, 58, 12.5, faint, "", words);
}

void put_picture(const struct picture *p, const struct sharing *s)
{
    struct frame f = frame_of(p, s);
    double least = TOP + ROW * (double)(f.shown < 8 ? f.shown : 8), bottom = f.bottom > least ? f.bottom : least;
    double wide = fmax(f.right + 40 + put_list(&f, bottom, false) + 20, 760), high = bottom + 64;
    put("<svg xmlns='http://www.w3.org/2000/svg' width='%.0f' height='%.0f' viewBox='0 0 %.0f %.0f' ", wide, high, wide, high);
    put("font-family='Helvetica, Arial, sans-serif'>\n<rect width='100%%' height='100%%' fill='%s'/>\n", paper);
    put_board(&f);
    f.pinched = put_pinched(&f);
    put_nets(&f);
    put_numbers(&f);
    put_list(&f, bottom, true);
    put_head(&f);
    put_key(&f, bottom + 34);
    put("</svg>\n");
}
