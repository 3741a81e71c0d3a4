/* The second router. Every comment in quotation marks is the wording of document 01, or of 02's items 2, 3, 6, 8 and 10. */
#include "second.h"

#include <stdarg.h>
#include <stdio.h>
#include <stdlib.h>
#include <string.h>

enum {
    LARGEST_SIDE = 63,
    MOST_CELLS = 63 * 63,
    MOST_VERTICES = 64 * 64,
    LONGEST_JOB = 8192,
    RECORD = 8
};

enum { UNSEEN = 0, OPEN = 1, EXPANDED = 2 };

enum { TYPE_BOARD = 1, TYPE_KEEPOUT = 2, TYPE_NET = 3 };

#define UNITS_PER_CELL ((int64_t)1 << 20)
#define NO_VERTEX SIZE_MAX

/* "A refusal carries its number and place and no other value." Number 0 is no refusal. */
struct refusal {
    uint64_t number, place, second;
};

static const struct refusal accepted = {0, 0, 0};

static struct refusal refuse(uint64_t number, uint64_t place)
{
    struct refusal refusal = {number, place, 0};
    return refusal;
}

struct point {
    int x, y;
};

struct board {
    const uint8_t *cells;
    int width, height;
};

/* ---------- the board and its words ---------- */

/* "Cells come as one byte each, row by row: 0 free, 1 blocked. Everything outside the board counts as blocked." */
static int is_blocked(const struct board *board, int i, int j)
{
    if (i < 0 || i >= board->width || j < 0 || j >= board->height)
        return 1;
    return board->cells[j * board->width + i] == 1;
}

/* "Vertices are cell corners, (0, 0) to (width, height)." */
static size_t vertex_count(const struct board *board)
{
    return (size_t)(board->width + 1) * (size_t)(board->height + 1);
}

/* "Vertex number = y × (width + 1) + x." */
static size_t vertex_number(const struct board *board, struct point p)
{
    return (size_t)p.y * (size_t)(board->width + 1) + (size_t)p.x;
}

static struct point vertex_point(const struct board *board, size_t vertex)
{
    struct point p = {(int)(vertex % (size_t)(board->width + 1)), (int)(vertex / (size_t)(board->width + 1))};
    return p;
}

/* ---------- sight ---------- */

static int min(int a, int b) { return a < b ? a : b; }
static int max(int a, int b) { return a > b ? a : b; }

/* "For a leg a to b and a point p, the side is (bx−ax)(py−ay) − (by−ay)(px−ax)." */
static int side(struct point a, struct point b, int px, int py)
{
    return (b.x - a.x) * (py - a.y) - (b.y - a.y) * (px - a.x);
}

/* "A cell (i, j) is crossed exactly if some of its four corners have a positive side and some a negative one, and
   min(ax,bx) < i+1, max(ax,bx) > i, min(ay,by) < j+1, max(ay,by) > j." */
static int crosses(struct point a, struct point b, int i, int j)
{
    int s1 = side(a, b, i, j), s2 = side(a, b, i + 1, j), s3 = side(a, b, i, j + 1), s4 = side(a, b, i + 1, j + 1);
    int some_positive = s1 > 0 || s2 > 0 || s3 > 0 || s4 > 0;
    int some_negative = s1 < 0 || s2 < 0 || s3 < 0 || s4 < 0;
    return some_positive && some_negative && min(a.x, b.x) < i + 1 && max(a.x, b.x) > i && min(a.y, b.y) < j + 1 &&
           max(a.y, b.y) > j;
}

/* "It crosses the interior of a blocked cell." */
static int crosses_blocked_cell(const struct board *board, struct point a, struct point b)
{
    for (int j = 0; j < board->height; j++)
        for (int i = 0; i < board->width; i++)
            if (is_blocked(board, i, j) && crosses(a, b, i, j))
                return 1;
    return 0;
}

/* "It is horizontal or vertical, and a unit edge on it has blocked cells on both sides, outside included." */
static int has_blocked_edge(const struct board *board, struct point a, struct point b)
{
    if (a.y == b.y)
        for (int x = min(a.x, b.x); x < max(a.x, b.x); x++)
            if (is_blocked(board, x, a.y - 1) && is_blocked(board, x, a.y))
                return 1;
    if (a.x == b.x)
        for (int y = min(a.y, b.y); y < max(a.y, b.y); y++)
            if (is_blocked(board, a.x - 1, y) && is_blocked(board, a.x, y))
                return 1;
    return 0;
}

/* ---------- what stops a leg ---------- */

/* "clear, or stopped by a cell, or stopped by an edge with its two vertices, nearer first". */
struct stop {
    enum wexxolin_stop kind;
    struct point first, second;
};

/* The size of a difference. */
static int size_of(int difference)
{
    return difference < 0 ? -difference : difference;
}

/* "min(ax,bx)" */
static int least_of(int one, int other)
{
    return one < other ? one : other;
}

/* "max(ax,bx)" */
static int greatest_of(int one, int other)
{
    return one > other ? one : other;
}

/* "For a leg a to b and a point p, the side is (bx−ax)(py−ay) − (by−ay)(px−ax)." */
static int side_of(struct point a, struct point b, int px, int py)
{
    return (b.x - a.x) * (py - a.y) - (b.y - a.y) * (px - a.x);
}

/*
 * "A cell (i, j) is crossed exactly if some of its four corners have a positive side and some a negative one, and
 * min(ax,bx) < i+1, max(ax,bx) > i, min(ay,by) < j+1, max(ay,by) > j."
 */
static int is_crossed(struct point a, struct point b, int i, int j)
{
    int some_positive = side_of(a, b, i, j) > 0 || side_of(a, b, i + 1, j) > 0
        || side_of(a, b, i, j + 1) > 0 || side_of(a, b, i + 1, j + 1) > 0;
    int some_negative = side_of(a, b, i, j) < 0 || side_of(a, b, i + 1, j) < 0
        || side_of(a, b, i, j + 1) < 0 || side_of(a, b, i + 1, j + 1) < 0;
    return some_positive && some_negative
        && least_of(a.x, b.x) < i + 1 && greatest_of(a.x, b.x) > i
        && least_of(a.y, b.y) < j + 1 && greatest_of(a.y, b.y) > j;
}

/*
 * "counted from the leg's first end": the place of a point p on the leg. The whole leg counts as
 * max(|dx|, 1) × max(|dy|, 1), so that the places of all grid lines met are whole numbers.
 */
static int place_of_point(struct point a, struct point b, struct point p)
{
    if (a.x != b.x) {
        return size_of(p.x - a.x) * greatest_of(size_of(b.y - a.y), 1);
    }
    return size_of(p.y - a.y);
}

/*
 * "the first such thing counted from the leg's first end": the place where a leg that crosses cell (i, j), and so is on
 * no axis, comes into its interior: once it is past both the nearer column line and the nearer row line of the cell.
 */
static int place_of_cell(struct point a, struct point b, int i, int j)
{
    int nearer_column = b.x > a.x ? i : i + 1;
    int nearer_row = b.y > a.y ? j : j + 1;
    int place_of_column = size_of(nearer_column - a.x) * size_of(b.y - a.y);
    int place_of_row = size_of(nearer_row - a.y) * size_of(b.x - a.x);
    return greatest_of(place_of_column, place_of_row);
}

/* A vertex p is on the leg, its ends counted: the side is 0 and p is within the span. */
static int is_on_leg(struct point a, struct point b, struct point p)
{
    return side_of(a, b, p.x, p.y) == 0
        && least_of(a.x, b.x) <= p.x && p.x <= greatest_of(a.x, b.x)
        && least_of(a.y, b.y) <= p.y && p.y <= greatest_of(a.y, b.y);
}

/* "stopped by an edge with its two vertices, nearer first": the unit edge p to q as a stop of the leg. */
static struct stop stop_at_edge(struct point a, struct point b, struct point p, struct point q)
{
    struct stop stop = { WEXXOLIN_EDGE, p, q };
    if (place_of_point(a, b, q) < place_of_point(a, b, p)) {
        stop.first = q;
        stop.second = p;
    }
    return stop;
}

/*
 * "A leg has sight unless one of these holds: It crosses the interior of a blocked cell. [...] It is horizontal or
 * vertical, and a unit edge on it has blocked cells on both sides, outside included." "It names the first such thing
 * counted from the leg's first end." The place of the stop goes to *place, -1 if there is none.
 */
static struct stop first_stop_and_place(const struct board *board, struct point a, struct point b, int *place)
{
    struct stop found = { WEXXOLIN_NOTHING, { 0, 0 }, { 0, 0 } };
    *place = -1;
    /* "It crosses the interior of a blocked cell." */
    for (int j = 0; j < board->height; j++) {
        for (int i = 0; i < board->width; i++) {
            if (is_blocked(board, i, j) && is_crossed(a, b, i, j)) {
                int here = place_of_cell(a, b, i, j);
                if (*place < 0 || here < *place) {
                    struct stop stop = { WEXXOLIN_CELL, { i, j }, { 0, 0 } };
                    found = stop;
                    *place = here;
                }
            }
        }
    }
    /* "It is horizontal [...], and a unit edge on it has blocked cells on both sides, outside included." */
    if (a.y == b.y) {
        for (int y = 0; y <= board->height; y++) {
            for (int x = 0; x < board->width; x++) {
                struct point p = { x, y };
                struct point q = { x + 1, y };
                if (is_on_leg(a, b, p) && is_on_leg(a, b, q) && is_blocked(board, x, y - 1) && is_blocked(board, x, y)) {
                    struct stop stop = stop_at_edge(a, b, p, q);
                    int here = place_of_point(a, b, stop.first);
                    if (*place < 0 || here < *place) {
                        found = stop;
                        *place = here;
                    }
                }
            }
        }
    }
    /* "It is [...] vertical, and a unit edge on it has blocked cells on both sides, outside included." */
    if (a.x == b.x) {
        for (int y = 0; y < board->height; y++) {
            for (int x = 0; x <= board->width; x++) {
                struct point p = { x, y };
                struct point q = { x, y + 1 };
                if (is_on_leg(a, b, p) && is_on_leg(a, b, q) && is_blocked(board, x - 1, y) && is_blocked(board, x, y)) {
                    struct stop stop = stop_at_edge(a, b, p, q);
                    int here = place_of_point(a, b, stop.first);
                    if (*place < 0 || here < *place) {
                        found = stop;
                        *place = here;
                    }
                }
            }
        }
    }
    return found;
}

/*
 * "A pinched vertex is one on the inside of the board with two diagonally opposite cells blocked and the other two free."
 */
static int is_pinched(const struct board *board, struct point v)
{
    if (!(0 < v.x && v.x < board->width && 0 < v.y && v.y < board->height)) {
        return 0;
    }
    int upper_left = is_blocked(board, v.x - 1, v.y - 1) != 0;
    int upper_right = is_blocked(board, v.x, v.y - 1) != 0;
    int lower_left = is_blocked(board, v.x - 1, v.y) != 0;
    int lower_right = is_blocked(board, v.x, v.y) != 0;
    return (upper_left && lower_right && !upper_right && !lower_left)
        || (upper_right && lower_left && !upper_left && !lower_right);
}

/* Two vertices are the same one. */
static int is_same_vertex(struct point p, struct point q)
{
    return p.x == q.x && p.y == q.y;
}

/*
 * "no leg may have one strictly inside it (sight by itself refuses that and names the vertex)", with item 2's "It names
 * the first such thing counted from the leg's first end."
 */
static struct stop first_stop_6(const struct board *board, struct point a, struct point b)
{
    int place;
    struct stop found = first_stop_and_place(board, a, b, &place);
    for (int y = 0; y <= board->height; y++) {
        for (int x = 0; x <= board->width; x++) {
            struct point v = { x, y };
            if (is_on_leg(a, b, v) && !is_same_vertex(v, a) && !is_same_vertex(v, b) && is_pinched(board, v)) {
                int here = place_of_point(a, b, v);
                if (place < 0 || here < place) {
                    struct stop stop = { WEXXOLIN_VERTEX, v, { 0, 0 } };
                    found = stop;
                    place = here;
                }
            }
        }
    }
    return found;
}

/* "Vertices are cell corners, (0, 0) to (width, height)." */
static int is_vertex_of_board(const struct board *board, struct point v)
{
    return 0 <= v.x && v.x <= board->width && 0 <= v.y && v.y <= board->height;
}

/* "Two vertices are neighbours if they differ and neither coordinate differs by more than 1." */
static int is_neighbour(struct point u, struct point v)
{
    return !is_same_vertex(u, v) && size_of(u.x - v.x) <= 1 && size_of(u.y - v.y) <= 1;
}

/* "a pinched vertex other than start and goal" */
static int is_pinched_other(const struct board *board, struct point start, struct point goal, struct point v)
{
    return is_pinched(board, v) && !is_same_vertex(v, start) && !is_same_vertex(v, goal);
}

/*
 * "Neighbours with sight are called visible neighbours; a pair of them counts once, whichever way round." "a pinched vertex
 * other than start and goal is nobody's visible neighbour". As a pair is the same whichever way round, neither of the two
 * may be such a vertex.
 */
static int is_visible_neighbour(const struct board *board, struct point start, struct point goal,
                                struct point u, struct point v)
{
    return is_vertex_of_board(board, u) && is_vertex_of_board(board, v)
        && is_neighbour(u, v)
        && first_stop_6(board, u, v).kind == WEXXOLIN_NOTHING
        && !is_pinched_other(board, start, goal, u)
        && !is_pinched_other(board, start, goal, v);
}

/* "A leg has sight unless one of these holds"; "no leg may have one strictly inside it (sight by itself refuses that)" */
static int has_sight(const struct board *board, struct point a, struct point b)
{
    return !crosses_blocked_cell(board, a, b) && !has_blocked_edge(board, a, b) && first_stop_6(board, a, b).kind == WEXXOLIN_NOTHING;
}

/* ---------- length and direction ---------- */

/* "the largest whole u with u² ≤" n, found bit by bit from the top */
static uint64_t root(unsigned __int128 n)
{
    unsigned __int128 u = 0;
    for (int bit = 62; bit >= 0; bit--) {
        unsigned __int128 larger = u + ((unsigned __int128)1 << bit);
        if (larger * larger <= n)
            u = larger;
    }
    return (uint64_t)u;
}

/* "The length of a leg with differences dx, dy is the largest whole u with u² ≤ (dx² + dy²) × 2^40." */
static uint64_t units_of(int dx, int dy)
{
    return root((unsigned __int128)(uint64_t)(dx * dx + dy * dy) << 40);
}

/* "the path's length in cells as an f64, equal to units / 2^20 with nothing lost" */
static double cells_of(uint64_t units)
{
    return (double)units / (double)UNITS_PER_CELL;
}

/* "dx × 2^20 / u and dy × 2^20 / u, each one rounded division of exact numbers" */
static double quotient(int difference, uint64_t units)
{
    return (double)(difference * UNITS_PER_CELL) / (double)units;
}

/* "4 / 5: difference beyond 63 in size, where a call has no board"; "A call that gives differences instead of vertices
   reports dx as 4, dy as 5." */
static struct refusal check_differences(int32_t dx, int32_t dy)
{
    if (dx < -LARGEST_SIDE || dx > LARGEST_SIDE)
        return refuse(4, 0);
    if (dy < -LARGEST_SIDE || dy > LARGEST_SIDE)
        return refuse(5, 0);
    return accepted;
}

/* "4 / 5: first / second vertex off the board (above 63, ... where a call has no board)" */
static struct refusal check_ends_without_board(size_t ax, size_t ay, size_t bx, size_t by)
{
    if (ax > LARGEST_SIDE || ay > LARGEST_SIDE)
        return refuse(4, 0);
    if (bx > LARGEST_SIDE || by > LARGEST_SIDE)
        return refuse(5, 0);
    return accepted;
}

static struct wexxolin_length length_answer(struct refusal refusal, int dx, int dy)
{
    struct wexxolin_length answer = {.number = refusal.number, .place = refusal.place, .second = refusal.second};
    if (refusal.number == 0) {
        answer.units = units_of(dx, dy);
        answer.cells = cells_of(answer.units);
    }
    return answer;
}

/* "A leg between equal vertices has no direction and is refused by 9."; "9 comes after 4 and 5" */
static struct wexxolin_direction direction_answer(struct refusal refusal, int dx, int dy)
{
    if (refusal.number == 0 && dx == 0 && dy == 0)
        refusal = refuse(9, 0);
    struct wexxolin_direction answer = {.number = refusal.number, .place = refusal.place, .second = refusal.second};
    if (refusal.number == 0) {
        answer.x = quotient(dx, units_of(dx, dy));
        answer.y = quotient(dy, units_of(dx, dy));
    }
    return answer;
}

struct wexxolin_length second_length(int32_t dx, int32_t dy)
{
    return length_answer(check_differences(dx, dy), dx, dy);
}

struct wexxolin_length second_length_between(size_t ax, size_t ay, size_t bx, size_t by)
{
    struct refusal refusal = check_ends_without_board(ax, ay, bx, by);
    return refusal.number ? length_answer(refusal, 0, 0) : length_answer(refusal, (int)bx - (int)ax, (int)by - (int)ay);
}

struct wexxolin_direction second_direction(int32_t dx, int32_t dy)
{
    return direction_answer(check_differences(dx, dy), dx, dy);
}

struct wexxolin_direction second_direction_between(size_t ax, size_t ay, size_t bx, size_t by)
{
    struct refusal refusal = check_ends_without_board(ax, ay, bx, by);
    return refusal.number ? direction_answer(refusal, 0, 0)
                          : direction_answer(refusal, (int)bx - (int)ax, (int)by - (int)ay);
}

/* ---------- refusals 1 to 6 ---------- */

/* "1: width or height outside 1..63"; "2: cell slice length is not width × height"; "3: a cell byte is not 0 or 1", and
   "With 3 the place is the index of the first such cell byte" */
static struct refusal check_board(const uint8_t *cells, size_t cells_len, size_t width, size_t height)
{
    if (width < 1 || width > LARGEST_SIDE || height < 1 || height > LARGEST_SIDE)
        return refuse(1, 0);
    if (cells_len != width * height)
        return refuse(2, 0);
    for (size_t i = 0; i < cells_len; i++)
        if (cells[i] != 0 && cells[i] != 1)
            return refuse(3, i);
    return accepted;
}

/* "4 / 5: first / second vertex off the board"; "The lowest number wins for 1 to 7" */
static struct refusal check_board_and_ends(const uint8_t *cells, size_t cells_len, size_t width, size_t height,
                                           size_t ax, size_t ay, size_t bx, size_t by)
{
    struct refusal refusal = check_board(cells, cells_len, width, height);
    if (refusal.number)
        return refusal;
    if (ax > width || ay > height)
        return refuse(4, 0);
    if (bx > width || by > height)
        return refuse(5, 0);
    return accepted;
}

struct wexxolin_sight second_sight(const uint8_t *cells, size_t cells_len, size_t width, size_t height,
                                   size_t ax, size_t ay, size_t bx, size_t by)
{
    struct refusal refusal = check_board_and_ends(cells, cells_len, width, height, ax, ay, bx, by);
    struct wexxolin_sight answer = {.number = refusal.number, .place = refusal.place, .second = refusal.second};
    if (refusal.number == 0) {
        struct board board = {cells, (int)width, (int)height};
        struct point a = {(int)ax, (int)ay}, b = {(int)bx, (int)by};
        answer.sight = has_sight(&board, a, b) ? 1 : 0;
        struct stop stop = first_stop_6(&board, a, b);
        answer.kind = stop.kind;
        answer.x = (uint64_t)stop.first.x, answer.y = (uint64_t)stop.first.y;
        answer.x2 = (uint64_t)stop.second.x, answer.y2 = (uint64_t)stop.second.y;
    }
    return answer;
}

/* ---------- the search ---------- */

struct search {
    struct board board;
    struct point start, goal;
    uint64_t *g;
    wexxolin_vertex *parents;
    uint8_t *marks;
    wexxolin_vertex *legs;
    uint64_t h[MOST_VERTICES];
    uint64_t expansions, tests;
};

static uint64_t leg_units(struct point a, struct point b)
{
    return units_of(b.x - a.x, b.y - a.y);
}

/* "an unseen vertex has g 0 and parent 0"; "each vertex's legs from the start: 0 there and where unseen"; "h is the leg length to
   the goal" */
static void forget_all(struct search *s)
{
    for (size_t v = 0; v < vertex_count(&s->board); v++) {
        s->g[v] = 0;
        s->parents[v] = 0;
        s->marks[v] = UNSEEN;
        s->legs[v] = 0;
        s->h[v] = leg_units(vertex_point(&s->board, v), s->goal);
    }
    s->expansions = 0;
    s->tests = 0;
}

/* "The start has g 0, itself as parent, and is open." */
static void open_start(struct search *s)
{
    size_t start = vertex_number(&s->board, s->start);
    s->g[start] = 0;
    s->parents[start] = (wexxolin_vertex)start;
    s->marks[start] = OPEN;
}

/* "Among open vertices the order is now f, g, fewer legs, vertex number", where "f = g + h, in units" */
static int comes_before(const struct search *s, size_t v, size_t w)
{
    uint64_t fv = s->g[v] + s->h[v], fw = s->g[w] + s->h[w];
    if (fv != fw)
        return fv < fw;
    if (s->g[v] != s->g[w])
        return s->g[v] < s->g[w];
    if (s->legs[v] != s->legs[w])
        return s->legs[v] < s->legs[w];
    return v < w;
}

/* "Take the open vertex with least f" */
static size_t first_open(const struct search *s)
{
    size_t first = NO_VERTEX;
    for (size_t v = 0; v < vertex_count(&s->board); v++)
        if (s->marks[v] == OPEN && (first == NO_VERTEX || comes_before(s, v, first)))
            first = v;
    return first;
}

/* "make one sight test from the taken vertex's parent to that neighbour. With sight, the candidate parent is that parent;
   without, the taken vertex itself. The candidate g is the candidate parent's g plus the leg's length. If the neighbour is
   unseen, or the candidate g is strictly smaller, it gets that g and parent and is open." "When a neighbour would get an equal g
   with fewer legs, it takes the new parent too."; its legs are "one more than its parent's" */
static void update(struct search *s, size_t taken, size_t neighbour)
{
    size_t parent = s->parents[taken];
    struct point to = vertex_point(&s->board, neighbour);
    s->tests++;
    size_t candidate = has_sight(&s->board, vertex_point(&s->board, parent), to) ? parent : taken;
    uint64_t candidate_g = s->g[candidate] + leg_units(vertex_point(&s->board, candidate), to);
    int candidate_legs = s->legs[candidate] + 1;
    if (s->marks[neighbour] == UNSEEN || candidate_g < s->g[neighbour] ||
        (candidate_g == s->g[neighbour] && candidate_legs < s->legs[neighbour])) {
        s->g[neighbour] = candidate_g;
        s->parents[neighbour] = (wexxolin_vertex)candidate;
        s->marks[neighbour] = OPEN;
        s->legs[neighbour] = (wexxolin_vertex)candidate_legs;
    }
}

/* "Otherwise mark it expanded (one expansion). For each visible neighbour not yet expanded", where "Neighbours with sight
   are called visible neighbours" */
static void expand(struct search *s, size_t taken)
{
    struct point from = vertex_point(&s->board, taken);
    s->marks[taken] = EXPANDED;
    s->expansions++;
    for (int y = max(from.y - 1, 0); y <= min(from.y + 1, s->board.height); y++)
        for (int x = max(from.x - 1, 0); x <= min(from.x + 1, s->board.width); x++) {
            struct point to = {x, y};
            size_t neighbour = vertex_number(&s->board, to);
            if (s->marks[neighbour] != EXPANDED && is_visible_neighbour(&s->board, s->start, s->goal, from, to))
                update(s, taken, neighbour);
        }
}

/* "If it is the goal, stop with a path"; "Open list empty: no path." Tells whether there is a path. */
static int run_search(struct search *s)
{
    forget_all(s);
    open_start(s);
    for (;;) {
        size_t taken = first_open(s);
        if (taken == NO_VERTEX)
            return 0;
        if (taken == vertex_number(&s->board, s->goal))
            return 1;
        expand(s, taken);
    }
}

/* "a path, read from the parents" */
static size_t path_count(const struct search *s)
{
    size_t count = 1, start = vertex_number(&s->board, s->start);
    for (size_t v = vertex_number(&s->board, s->goal); v != start; v = s->parents[v])
        count++;
    return count;
}

/* "A path is its list of vertices, start first." */
static void write_path(const struct search *s, wexxolin_vertex *path, size_t count)
{
    size_t v = vertex_number(&s->board, s->goal);
    for (size_t i = count; i-- > 0; v = s->parents[v])
        path[i] = (wexxolin_vertex)v;
}

/* "A path's length is the sum over its legs" */
static uint64_t path_units(const struct search *s, const wexxolin_vertex *path, size_t count)
{
    uint64_t units = 0;
    for (size_t i = 1; i < count; i++)
        units += leg_units(vertex_point(&s->board, path[i - 1]), vertex_point(&s->board, path[i]));
    return units;
}

/* "0: length, units, vertex count, both counts"; "The legs returned equal the path's vertices less one."; "7: vertex count needed",
   as the place; "8: both counts" */
static struct wexxolin_route search_answer(struct search *s, wexxolin_vertex *path, size_t path_len)
{
    struct wexxolin_route answer = {.number = 0, .place = 0};
    if (run_search(s)) {
        size_t count = path_count(s);
        if (count > path_len) {
            answer.number = 7;
            answer.place = count;
            return answer;
        }
        write_path(s, path, count);
        answer.units = path_units(s, path, count);
        answer.cells = cells_of(answer.units);
        answer.vertices = count;
        answer.legs = count - 1;
    } else {
        answer.number = 8;
    }
    answer.expansions = s->expansions;
    answer.tests = s->tests;
    return answer;
}

/* "6: g, parent or mark slice shorter than the vertex count"; "6 covers the new slice" */
struct wexxolin_route second_route(const uint8_t *cells, size_t cells_len, size_t width, size_t height,
                                   size_t sx, size_t sy, size_t gx, size_t gy,
                                   uint64_t *g, size_t g_len, wexxolin_vertex *parents, size_t parents_len,
                                   uint8_t *marks, size_t marks_len, wexxolin_vertex *legs, size_t legs_len,
                                   wexxolin_vertex *path, size_t path_len)
{
    struct refusal refusal = check_board_and_ends(cells, cells_len, width, height, sx, sy, gx, gy);
    if (refusal.number == 0) {
        size_t count = (width + 1) * (height + 1);
        if (g_len < count || parents_len < count || marks_len < count || legs_len < count)
            refusal = refuse(6, 0);
    }
    if (refusal.number) {
        struct wexxolin_route answer = {.number = refusal.number, .place = refusal.place, .second = refusal.second};
        return answer;
    }
    struct search s = {.board = {cells, (int)width, (int)height}, .start = {(int)sx, (int)sy}, .goal = {(int)gx, (int)gy},
                       .g = g, .parents = parents, .marks = marks, .legs = legs};
    return search_answer(&s, path, path_len);
}

/* ---------- any angle ---------- */

/* "From now on it may only be the first or last vertex of a path": a path goes on from any vertex but a pinched one, and from the
   start whatever it is. */
static int may_go_on(const struct board *board, struct point start, struct point v)
{
    return is_same_vertex(v, start) || !is_pinched(board, v);
}

/* "whenever legs with sight, of any lengths, lead from start to goal under document 01 as amended by item 6": from each vertex that
   is led to, a leg is tried to every vertex that is not. */
void second_lead(const uint8_t *cells, size_t width, size_t height, size_t sx, size_t sy, uint8_t *leads)
{
    struct board board = {cells, (int)width, (int)height};
    struct point start = {(int)sx, (int)sy};
    size_t waiting[MOST_VERTICES], first = 0, last = 0;
    memset(leads, 0, vertex_count(&board));
    leads[vertex_number(&board, start)] = 1;
    waiting[last++] = vertex_number(&board, start);
    while (first < last) {
        struct point from = vertex_point(&board, waiting[first++]);
        if (!may_go_on(&board, start, from))
            continue;
        for (size_t v = 0; v < vertex_count(&board); v++)
            if (!leads[v] && has_sight(&board, from, vertex_point(&board, v))) {
                leads[v] = 1;
                waiting[last++] = v;
            }
    }
}

/* ---------- job records ---------- */

/* What the records read so far have said. */
struct job {
    unsigned width, height;
    size_t nets;
    unsigned last_net;
};

/* "13 keeps the unknown type" */
static int is_13(const uint8_t *r)
{
    return r[0] != TYPE_BOARD && r[0] != TYPE_KEEPOUT && r[0] != TYPE_NET;
}

/*
 * The bits of a byte (number 0 to 7) that a record of this type leaves unused.
 * "Byte 0 is the type."
 * "1 board: byte 2 width, byte 3 height; others 0."
 * "2 keepout: byte 2 and 3 first cell x, y; byte 4 and 5 the x, y just past the last; 1, 6, 7 are 0."
 * "3 net: byte 1 net number; 2, 3 start x, y; 4, 5 goal x, y; 6, 7 are 0."
 */
static unsigned unused_bits_of_byte(unsigned type, unsigned byte)
{
    if (byte == 0) {
        return 0;
    }
    if (type == 1) {
        if (byte == 2 || byte == 3) {
            return 0;
        }
        return 0xFF;
    }
    if (byte >= 2 && byte <= 5) {
        return 0;
    }
    if (byte == 1 && type == 3) {
        return 0;
    }
    return 0xFF;
}

/*
 * "23, an unused byte, comes directly after 13 with record and byte number, both printed." The number of the first unused
 * byte that is not 0, or 0 if there is none (byte 0 is the type and never unused).
 */
static unsigned byte_of_23(const uint8_t *r)
{
    for (unsigned byte = 1; byte < 8; byte++) {
        if ((r[byte] & unused_bits_of_byte(r[0], byte)) != 0) {
            return byte;
        }
    }
    return 0;
}

/* "record 0 is not a board (or there is none), or a later one is" */
static int is_12(const uint8_t *r, size_t record)
{
    return (record == 0) != (r[0] == TYPE_BOARD);
}

/* "keepout after a net" */
static int is_18(const uint8_t *r, const struct job *job)
{
    return r[0] == TYPE_KEEPOUT && job->nets > 0;
}

/* "board side outside 1..63"; "1 board: byte 2 width, byte 3 height" */
static int is_14(const uint8_t *r)
{
    return r[2] < 1 || r[2] > LARGEST_SIDE || r[3] < 1 || r[3] > LARGEST_SIDE;
}

/* "keepout empty or beyond the board"; "byte 2 and 3 first cell x, y; byte 4 and 5 the x, y just past the last" */
static int is_15(const uint8_t *r, const struct job *job)
{
    int empty = r[4] <= r[2] || r[5] <= r[3];
    int beyond = r[4] > job->width || r[5] > job->height;
    return empty || beyond;
}

/* "net number not above the one before (0 before the first)"; "byte 1 net number" */
static int is_17(const uint8_t *r, const struct job *job)
{
    return r[1] <= job->last_net;
}

/* "net end off the board"; "2, 3 start x, y; 4, 5 goal x, y" */
static int is_16(const uint8_t *r, const struct job *job)
{
    return r[2] > job->width || r[3] > job->height || r[4] > job->width || r[5] > job->height;
}

/* "each checked 13, 12, 18, then 14, 15, or 17 before 16"; "23, an unused byte, comes directly after 13 with record and byte
   number" */
static struct refusal record_refusal(const uint8_t *r, size_t record, const struct job *job)
{
    if (is_13(r))
        return refuse(13, record);
    if (byte_of_23(r)) {
        struct refusal refusal = {23, record, byte_of_23(r)};
        return refusal;
    }
    if (is_12(r, record))
        return refuse(12, record);
    if (is_18(r, job))
        return refuse(18, record);
    if (r[0] == TYPE_BOARD && is_14(r))
        return refuse(14, record);
    if (r[0] == TYPE_KEEPOUT && is_15(r, job))
        return refuse(15, record);
    if (r[0] == TYPE_NET && is_17(r, job))
        return refuse(17, record);
    if (r[0] == TYPE_NET && is_16(r, job))
        return refuse(16, record);
    return accepted;
}

static void take_record(const uint8_t *r, struct job *job)
{
    if (r[0] == TYPE_BOARD) {
        job->width = r[2];
        job->height = r[3];
    }
    if (r[0] == TYPE_NET) {
        job->nets++;
        job->last_net = r[1];
    }
}

/* "In a job: 10, 11, then records in order"; "12: record 0 is not a board (or there is none)" */
static struct refusal check_job(const uint8_t *bytes, size_t length, struct job *job)
{
    memset(job, 0, sizeof *job);
    if (length > LONGEST_JOB)
        return refuse(10, 0);
    if (length % RECORD != 0)
        return refuse(11, 0);
    if (length == 0)
        return refuse(12, 0);
    for (size_t record = 0; record < length / RECORD; record++) {
        const uint8_t *r = bytes + record * RECORD;
        struct refusal refusal = record_refusal(r, record, job);
        if (refusal.number)
            return refusal;
        take_record(r, job);
    }
    return accepted;
}

/* "Cells in no keepout are free; keepouts may overlap." */
static void write_cells(const uint8_t *bytes, size_t length, const struct job *job, uint8_t *board)
{
    for (size_t i = 0; i < (size_t)job->width * job->height; i++)
        board[i] = 0;
    for (size_t at = 0; at < length; at += RECORD)
        if (bytes[at] == TYPE_KEEPOUT)
            for (unsigned y = bytes[at + 3]; y < bytes[at + 5]; y++)
                for (unsigned x = bytes[at + 2]; x < bytes[at + 4]; x++)
                    board[y * job->width + x] = 1;
}

/* "19: lent board slice shorter than the cells"; "A job call never changes its board slice on refusal; when it accepts,
   bytes beyond width × height stay as they were." */
struct wexxolin_board second_board(const uint8_t *bytes, size_t length, uint8_t *board, size_t board_len)
{
    struct job job;
    struct refusal refusal = check_job(bytes, length, &job);
    if (refusal.number == 0 && board_len < (size_t)job.width * job.height)
        refusal = refuse(19, 0);
    struct wexxolin_board answer = {.number = refusal.number, .place = refusal.place, .second = refusal.second};
    if (refusal.number == 0) {
        write_cells(bytes, length, &job, board);
        answer.width = job.width;
        answer.height = job.height;
        answer.nets = job.nets;
    }
    return answer;
}

/* The record of the net with this index; the caller knows that there is one. */
static const uint8_t *net_record(const uint8_t *bytes, size_t index)
{
    const uint8_t *r = bytes;
    size_t before = 0;
    while (r[0] != TYPE_NET || before < index) {
        if (r[0] == TYPE_NET)
            before++;
        r += RECORD;
    }
    return r;
}

/* "A net read takes a job and an index counted from 0 and checks the whole job first."; "20: no net with that index";
   "byte 1 net number; 2, 3 start x, y; 4, 5 goal x, y" */
struct wexxolin_net second_net(const uint8_t *bytes, size_t length, size_t index)
{
    struct job job;
    struct refusal refusal = check_job(bytes, length, &job);
    if (refusal.number == 0 && index >= job.nets)
        refusal = refuse(20, 0);
    struct wexxolin_net answer = {.number = refusal.number, .place = refusal.place, .second = refusal.second};
    if (refusal.number == 0) {
        const uint8_t *r = net_record(bytes, index);
        answer.net = r[1];
        answer.sx = r[2];
        answer.sy = r[3];
        answer.gx = r[4];
        answer.gy = r[5];
    }
    return answer;
}

/* ---------- the route program's lines ---------- */

void second_print(struct second_text *text, const char *format, ...)
{
    if (text->room - text->length < 128) {
        text->room = text->room * 2 + 4096;
        text->bytes = realloc(text->bytes, text->room);
        if (!text->bytes)
            abort();
    }
    va_list arguments;
    va_start(arguments, format);
    text->length += (size_t)vsnprintf(text->bytes + text->length, 128, format, arguments);
    va_end(arguments);
}

/* "net number, `path`, units, expansions, tests, then the vertices as x,y; or `none` with the two counts"; "The words `net`,
   `expanded`, `tests` and `at` stand as below, with one space between fields. Each line ends with a newline." */
static void net_line(const uint8_t *cells, const struct wexxolin_board *b, const struct wexxolin_net *net,
                     struct second_text *text)
{
    static uint64_t g[MOST_VERTICES];
    static wexxolin_vertex parents[MOST_VERTICES], legs[MOST_VERTICES], path[MOST_VERTICES];
    static uint8_t marks[MOST_VERTICES];
    struct wexxolin_route r =
        second_route(cells, b->width * b->height, b->width, b->height, net->sx, net->sy, net->gx, net->gy, g, MOST_VERTICES,
                     parents, MOST_VERTICES, marks, MOST_VERTICES, legs, MOST_VERTICES, path, MOST_VERTICES);
    second_print(text, "net %u ", (unsigned)net->net);
    if (r.number == 0)
        second_print(text, "path %llu ", (unsigned long long)r.units);
    else
        second_print(text, "none ");
    second_print(text, "expanded %u tests %u", (unsigned)r.expansions, (unsigned)r.tests);
    if (r.number == 0)
        second_print(text, " at");
    for (size_t i = 0; i < r.vertices; i++)
        second_print(text, " %u,%u", (unsigned)(path[i] % (b->width + 1)), (unsigned)(path[i] / (b->width + 1)));
    second_print(text, "\n");
}

/* "reads a job ... and prints one line per net in order"; "A refused job prints only `refused`, number, `at`, place."; "23 ...
   with record and byte number, both printed" */
void second_lines(const uint8_t *job, size_t job_len, struct second_text *text)
{
    static uint8_t cells[MOST_CELLS];
    struct wexxolin_board b = second_board(job, job_len, cells, MOST_CELLS);
    if (b.number) {
        second_print(text, "refused %u at %u", (unsigned)b.number, (unsigned)b.place);
        if (b.number == 23)
            second_print(text, " %u", (unsigned)b.second);
        second_print(text, "\n");
        return;
    }
    for (size_t index = 0; index < b.nets; index++) {
        struct wexxolin_net net = second_net(job, job_len, index);
        net_line(cells, &b, &net, text);
    }
}
