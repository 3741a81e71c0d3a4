/* A fast, ordinary router: Basic Theta* with a binary heap with decrease-key, an integer sight walk over the crossed cells
   only, and the hardware's square root. Its results are document 01's, every entry of every slice.

   To be compiled with -fno-math-errno, so that the square root is one instruction and no call.

   It makes every sight test that it counts. Compiled with -DFAST_SKIP_DECIDED=1 it leaves out the walks whose outcome can
   change nothing (the neighbour already has a g that neither candidate beats) and still counts them as tests. */
#include "fast.h"

#include <string.h>

#ifndef FAST_SKIP_DECIDED
#define FAST_SKIP_DECIDED 0
#endif

/* A vertex's place is y * LINE + x whatever the board's width, so that a step is a constant and x and y are cut out of bits. */
enum {
    LINE = LARGEST_SIDE + 1,
    LINE_BITS = LINE == 64 ? 6 : LINE == 128 ? 7 : LINE == 256 ? 8 : 9,
    PLACES = LINE * LINE,
    PLACE_BITS = 2 * LINE_BITS
};
_Static_assert(LINE == 1 << LINE_BITS, "the largest side is 63, 127, 255 or 511");

#define AXIS_UNITS 1048576u
#define DIAGONAL_UNITS 1482910u

#define INLINE static inline __attribute__((always_inline))

/* ---------- the board with its blocked surroundings ---------- */

/* A byte for each place. Of the cell that has the vertex as its lower right corner: is it BLOCKED, as everything outside the
   board is. Of the vertex itself: was it SEEN, is it EXPANDED. So the cells around the vertex at p are at p, p + 1, p + LINE and
   p + LINE + 1. */
enum { BLOCKED = 1, SEEN = 2, EXPANDED = 4 };

struct field {
    uint8_t bytes[PLACES + LINE + 1];
};

typedef uint8_t sixteen __attribute__((vector_size(16), aligned(1), may_alias));
typedef uint64_t pair __attribute__((vector_size(16)));
typedef uint64_t eight __attribute__((aligned(1), may_alias));

/* Copies a row of cells and returns the bits that its bytes have. */
INLINE uint64_t copy_row(uint8_t *to, const uint8_t *from, size_t width)
{
    uint64_t bits = 0;
    if (width >= 16) {
        sixteen all = *(const sixteen *)(from + width - 16);
        *(sixteen *)(to + width - 16) = all;
        for (size_t i = 0; i + 16 < width; i += 16) {
            sixteen part = *(const sixteen *)(from + i);
            *(sixteen *)(to + i) = part;
            all |= part;
        }
        pair both = (pair)all;
        bits = both[0] | both[1];
    } else if (width >= 8) {
        uint64_t first = *(const eight *)from, last = *(const eight *)(from + width - 8);
        *(eight *)to = first;
        *(eight *)(to + width - 8) = last;
        bits = first | last;
    } else {
        for (size_t i = 0; i < width; i++)
            bits |= to[i] = from[i];
    }
    return bits;
}

/* Returns whether a cell byte is above 1. */
static int fill_field(struct field *field, const uint8_t *cells, size_t width, size_t height)
{
    uint8_t *row = field->bytes + LINE;
    uint64_t bits = 0;
    memset(field->bytes, BLOCKED, width + 2);
    for (size_t j = 0; j < height; j++, row += LINE, cells += width) {
        bits |= copy_row(row + 1, cells, width);
        row[0] = BLOCKED;
        row[width + 1] = BLOCKED;
    }
    memset(row, BLOCKED, width + 2);
    return (bits & 0xfefefefefefefefeu) != 0;
}

/* ---------- refusals ---------- */

/* Refusals 1 to 5. Where it is none of the first three, the field is filled. */
static uint64_t refusal(struct field *field, const uint8_t *cells, size_t cells_len, size_t width, size_t height,
                        size_t ax, size_t ay, size_t bx, size_t by, uint64_t *place)
{
    *place = 0;
    if (width - 1 > LARGEST_SIDE - 1 || height - 1 > LARGEST_SIDE - 1)
        return 1;
    if (cells_len != width * height)
        return 2;
    if (fill_field(field, cells, width, height)) {
        while (cells[*place] <= 1)
            ++*place;
        return 3;
    }
    if (ax > width || ay > height)
        return 4;
    if (bx > width || by > height)
        return 5;
    return 0;
}

/* ---------- sight ---------- */

/* A leg on an axis: the cells on both sides of each of its edges, and those of the edge before: where both pairs differ within
   and from each other, the vertex between is pinched. On a border that cannot be, for one side is blocked all along. */
INLINE int axis(const uint8_t *one, ptrdiff_t other, ptrdiff_t step, const uint8_t *end)
{
    if (one[0] & one[other] & BLOCKED)
        return 0;
    for (one += step; one != end; one += step) {
        unsigned near = one[0], far = one[other];
        if (near & far & BLOCKED)
            return 0;
        if ((near ^ far) & (near ^ one[-step]) & (far ^ one[other - step]) & BLOCKED)
            return 0;
    }
    return 1;
}

/* A leg n steps along and m across, m <= n, whose first cell is free. ahead is how far it goes on, in parts of a cell, before
   it leaves its line of cells, less 1: below 0 it leaves it within the next step along, and with -1 just at its end, through a
   corner. Only there can the leg be at its end, in the last cell, or at a vertex, which is pinched if the two cells that it does
   not cross are blocked (if one that it crosses is, it has no sight anyway). */
INLINE int slant(const uint8_t *cell, ptrdiff_t along, ptrdiff_t across, int n, int m, const uint8_t *last)
{
    ptrdiff_t both = along + across;
    int rest = n - m, ahead = rest - 1;
    __asm__("" : "+r"(both)); /* held, so that gcc computes no address twice */
    if (ahead >= 0)
        goto straight;
    for (;;) {
        do {
            if (ahead == -1) {
                if (cell == last)
                    return 1;
                if (cell[across] & cell[along] & BLOCKED)
                    return 0;
            } else if (cell[across] & BLOCKED)
                return 0;
            cell += both;
            if (*cell & BLOCKED)
                return 0;
            ahead += rest;
        } while (ahead < 0);
    straight:
        do {
            cell += along;
            if (*cell & BLOCKED)
                return 0;
            ahead -= m;
        } while (ahead >= 0);
    }
}

/* A leg dx and dy steps of these ways, neither 0. */
INLINE int steps(const uint8_t *cell, ptrdiff_t x, ptrdiff_t y, int dx, int dy, const uint8_t *last)
{
    if (__builtin_expect(*cell & BLOCKED, 0))
        return 0;
    return dx > dy ? slant(cell, x, y, dx, dy, last) : slant(cell, y, x, dy, dx, last);
}

/* The leg by dx, dy from the vertex of field byte a to that of b. */
INLINE int walk(const uint8_t *a, const uint8_t *b, int dx, int dy)
{
    if (dx > 0) {
        if (dy > 0)
            return steps(a + LINE + 1, 1, LINE, dx, dy, b);
        if (dy < 0)
            return steps(a + 1, 1, -LINE, dx, -dy, b + LINE);
        return axis(a + 1, LINE, 1, b + 1);
    }
    if (dx < 0) {
        if (dy > 0)
            return steps(a + LINE, -1, LINE, -dx, dy, b + 1);
        if (dy < 0)
            return steps(a, -1, -LINE, -dx, -dy, b + LINE + 1);
        return axis(a, LINE, -1, b);
    }
    if (dy > 0)
        return axis(a + LINE, 1, LINE, b + LINE);
    if (dy < 0)
        return axis(a, 1, -LINE, b);
    return 1;
}

/* The cell (x, y), outside included. */
static int is_shut(const struct field *field, int x, int y) { return field->bytes[(y + 1) * LINE + x + 1] & BLOCKED; }

/* Two diagonally opposite cells around the vertex at this byte blocked, the other two free; nowhere on the border, where two cells
   side by side are outside. */
INLINE int is_pinched(const uint8_t *at)
{
    return (at[0] ^ at[1]) & (at[0] ^ at[LINE]) & (at[1] ^ at[LINE + 1]) & BLOCKED;
}

static void name_vertex(int x, int y, struct wexxolin_sight *answer)
{
    answer->kind = WEXXOLIN_VERTEX, answer->x = (uint64_t)x, answer->y = (uint64_t)y;
}

/* The first stop of a leg that the walk found stopped, step by step from its first end. The search does not ask for it. */
static void name_stop(const struct field *field, int ax, int ay, int bx, int by, struct wexxolin_sight *answer)
{
    int right = (bx > ax) - (bx < ax), down = (by > ay) - (by < ay), n = (bx - ax) * right, m = (by - ay) * down;
    if (n && m) {
        for (int u = 0; u < n; u++)
            for (int v = m * u / n; v < m && n * v < m * (u + 1); v++) {
                int x = right > 0 ? ax + u : ax - u - 1, y = down > 0 ? ay + v : ay - v - 1;
                if (is_shut(field, x, y)) {
                    answer->kind = WEXXOLIN_CELL, answer->x = (uint64_t)x, answer->y = (uint64_t)y;
                    return;
                }
                int vx = ax + right * (u + 1), vy = ay + down * (v + 1);
                if (m * (u + 1) == n * (v + 1) && u + 1 < n && is_pinched(field->bytes + vy * LINE + vx)) {
                    name_vertex(vx, vy, answer);
                    return;
                }
            }
        return;
    }
    for (int x = ax, y = ay; x != bx || y != by; x += right, y += down) {
        if ((x != ax || y != ay) && is_pinched(field->bytes + y * LINE + x)) {
            name_vertex(x, y, answer);
            return;
        }
        if (is_shut(field, right < 0 ? x - 1 : x, down < 0 ? y - 1 : y) && is_shut(field, right > 0 ? x : x - 1, down > 0 ? y : y - 1)) {
            answer->kind = WEXXOLIN_EDGE, answer->x = (uint64_t)x, answer->y = (uint64_t)y;
            answer->x2 = (uint64_t)(x + right), answer->y2 = (uint64_t)(y + down);
            return;
        }
    }
}

struct wexxolin_sight fast_sight(const uint8_t *cells, size_t cells_len, size_t width, size_t height,
                                 size_t ax, size_t ay, size_t bx, size_t by)
{
    struct wexxolin_sight answer = {0};
    struct field field;
    answer.number = refusal(&field, cells, cells_len, width, height, ax, ay, bx, by, &answer.place);
    if (answer.number == 0) {
        answer.sight = (uint64_t)walk(field.bytes + ay * LINE + ax, field.bytes + by * LINE + bx, (int)bx - (int)ax, (int)by - (int)ay);
        if (answer.sight == 0)
            name_stop(&field, (int)ax, (int)ay, (int)bx, (int)by, &answer);
    }
    return answer;
}

/* ---------- length ---------- */

/* The root is rounded, and yet none of a square up to 2 * 511 * 511 is rounded up to a whole number of units: all were tried. */
INLINE uint64_t units_of(int square)
{
    return (uint64_t)(int64_t)(__builtin_sqrt((double)square) * AXIS_UNITS);
}

uint64_t fast_units(int dx, int dy) { return units_of(dx * dx + dy * dy); }

/* ---------- the open list ---------- */

/* A key has f in its highest bits, then how near the goal is, then the place: equal f, then least g, which is the greatest
   distance from the goal. Where both are equal, legs are looked at, and then the vertex number. An f is below 1482911 * PLACES.
   From sides of 128 on a word has no room for the distance: g is looked at where f is equal. */
typedef uint64_t key;

enum { NEAR_BITS = LARGEST_SIDE <= 127 ? PLACE_BITS + 1 : 0, F_AT = NEAR_BITS + PLACE_BITS };

#if LARGEST_SIDE <= 255
typedef uint16_t short_place;
#else
typedef uint32_t short_place;
#endif

struct search {
    struct field field;
    size_t count;
    key keys[PLACES + 2];          /* the heap, from 1 on; keys[0] is 0, before all */
    short_place where[PLACES];     /* in the heap; this and the others are right for seen vertices only */
    short_place parent[PLACES];
    short_place legs[PLACES];
    uint64_t g[PLACES];
};

INLINE key key_of(uint64_t f, int square, unsigned place)
{
    key near = NEAR_BITS ? (1u << NEAR_BITS) - 1 - (unsigned)square : 0;
    return f << F_AT | near << PLACE_BITS | place;
}

INLINE unsigned place_of(key key) { return (unsigned)key & (PLACES - 1); }

/* Is a taken before b: by the words themselves, and where only the places differ by g if it is not in them, the legs and then the places. */
INLINE int before(const struct search *s, key a, key b)
{
    if ((a ^ b) >> PLACE_BITS)
        return a < b;
    unsigned p = place_of(a), q = place_of(b);
    if (!NEAR_BITS && s->g[p] != s->g[q])
        return s->g[p] < s->g[q];
    return s->legs[p] != s->legs[q] ? s->legs[p] < s->legs[q] : p < q;
}

INLINE void put(struct search *s, size_t i, key key)
{
    s->keys[i] = key;
    s->where[place_of(key)] = (short_place)i;
}

INLINE void rise(struct search *s, size_t i, key key)
{
    while (before(s, key, s->keys[i / 2])) {
        put(s, i, s->keys[i / 2]);
        i /= 2;
    }
    put(s, i, key);
}

/* Takes the first key away: the gap goes down to the end, and the last key rises from there. */
static inline void take_first(struct search *s)
{
    size_t count = s->count - 1, i = 1, down = 2;
    key last = s->keys[count + 1];
    s->keys[count + 1] = (key)-1;
    s->count = count;
    while (down <= count) {
        down += before(s, s->keys[down + 1], s->keys[down]);
        put(s, i, s->keys[down]);
        i = down;
        down = 2 * i;
    }
    if (count > 0)
        rise(s, i, last);
}

/* ---------- the search ---------- */

/* The visible neighbours, one bit each, by which cells around are blocked: 1 upper left, 2 upper right, 4 lower left, 8 lower right. */
enum { N = 1, NE = 2, E = 4, SE = 8, S = 16, SW = 32, W = 64, NW = 128 };
#define VISIBLE(nw, ne, sw, se) (255 ^ ((nw & ne) * N | ne * NE | (ne & se) * E | se * SE | (se & sw) * S | sw * SW | (sw & nw) * W | nw * NW))
#define UPPER(sw, se) VISIBLE(0, 0, sw, se), VISIBLE(1, 0, sw, se), VISIBLE(0, 1, sw, se), VISIBLE(1, 1, sw, se)
static const uint8_t visible_by[16] = {UPPER(0, 0), UPPER(1, 0), UPPER(0, 1), UPPER(1, 1)};

INLINE unsigned visible(const uint8_t *at)
{
    typedef uint16_t two __attribute__((aligned(1), may_alias)); /* the first byte is the lower half */
    unsigned four = (*(const two *)at & 0x101) | (*(const two *)(at + LINE) & 0x101) << 2;
    return visible_by[(four | four >> 7) & 15];
}

/* The vertex that is being expanded: its place and its parent's, their g and legs, and how far the parent and the goal are from it. */
struct turn {
    size_t place, parent, goal;
    uint64_t own_g, parent_g;
    unsigned own_legs, parent_legs;
    int px, py, hx, hy;
    unsigned visible;
    uint64_t expansions, tests;
};

/* The neighbour by dx, dy, which has this bit. The walk starts from it: its end is new, the parent's has been seen before. */
INLINE void look(struct search *s, struct turn *t, unsigned bit, int dx, int dy)
{
    size_t n = t->place + (size_t)(dy * LINE + dx), from = t->parent;
    uint8_t *byte = s->field.bytes + n;
    if (!(t->visible & bit) || *byte & EXPANDED)
        return;
    if (!(*byte & SEEN) && is_pinched(byte) && n != t->goal) /* what has been seen was no such vertex; the start has been */
        return;
    int px = t->px - dx, py = t->py - dy;
    uint64_t new_g, step = dx && dy ? DIAGONAL_UNITS : AXIS_UNITS;
    unsigned legs = t->parent_legs + 1;
    t->tests++;
#if FAST_SKIP_DECIDED
    if (*byte & SEEN && s->g[n] < t->parent_g + units_of(px * px + py * py) && s->g[n] < t->own_g + step)
        return;
#endif
    if (walk(byte, s->field.bytes + from, px, py))
        new_g = t->parent_g + units_of(px * px + py * py);
    else
        new_g = t->own_g + step, legs = t->own_legs + 1, from = t->place;
    size_t i;
    key k;
    if (!(*byte & SEEN)) {
        int hx = t->hx - dx, hy = t->hy - dy, square = hx * hx + hy * hy;
        *byte |= SEEN;
        i = ++s->count;
        k = key_of(new_g + units_of(square), square, (unsigned)n);
    } else if (new_g < s->g[n] || (new_g == s->g[n] && legs < s->legs[n])) {
        i = s->where[n];
        k = s->keys[i] - ((key)(s->g[n] - new_g) << F_AT);
    } else {
        return;
    }
    s->g[n] = new_g;
    s->parent[n] = (short_place)from;
    s->legs[n] = (short_place)legs;
    rise(s, i, k);
}

INLINE void look_around(struct search *s, struct turn *t)
{
    look(s, t, N, 0, -1);
    look(s, t, NE, 1, -1);
    look(s, t, E, 1, 0);
    look(s, t, SE, 1, 1);
    look(s, t, S, 0, 1);
    look(s, t, SW, -1, 1);
    look(s, t, W, -1, 0);
    look(s, t, NW, -1, -1);
}

/* The caller's slices. A vertex is written when its g is final: when it is expanded, or at the end. */
struct slices {
    size_t stride;
    uint64_t *g;
    wexxolin_vertex *parents;
    uint8_t *marks;
    wexxolin_vertex *legs;
};

INLINE void write(const struct slices *to, size_t x, size_t y, size_t px, size_t py, uint64_t g, uint8_t mark, unsigned legs)
{
    size_t v = y * to->stride + x;
    to->g[v] = g;
    to->parents[v] = (wexxolin_vertex)(py * to->stride + px);
    to->marks[v] = mark;
    to->legs[v] = (wexxolin_vertex)legs;
}

/* Returns whether there is a path; counts[0] expansions, counts[1] tests. */
static int run(struct search *s, size_t start, size_t goal, const struct slices *to, uint64_t counts[2])
{
    size_t gx = goal % LINE, gy = goal / LINE;
    int hx = (int)gx - (int)(start % LINE), hy = (int)gy - (int)(start / LINE), square = hx * hx + hy * hy, found = 0;
    struct turn t = {.goal = goal};
    s->keys[0] = 0;
    s->count = 1;
    put(s, 1, key_of(units_of(square), square, (unsigned)start));
    s->parent[start] = (short_place)start;
    s->g[start] = 0;
    s->legs[start] = 0;
    while (s->count > 0) {
        t.place = place_of(s->keys[1]);
        if (t.place == goal) {
            found = 1;
            break;
        }
        take_first(s);
        t.parent = s->parent[t.place];
        size_t x = t.place % LINE, y = t.place / LINE, px = t.parent % LINE, py = t.parent / LINE;
        t.px = (int)px - (int)x, t.py = (int)py - (int)y;
        t.hx = (int)gx - (int)x, t.hy = (int)gy - (int)y;
        t.own_g = s->g[t.place], t.parent_g = s->g[t.parent];
        t.own_legs = s->legs[t.place], t.parent_legs = s->legs[t.parent];
        t.visible = visible(s->field.bytes + t.place);
        s->field.bytes[t.place] |= EXPANDED;
        write(to, x, y, px, py, t.own_g, 2, t.own_legs);
        t.expansions++;
        look_around(s, &t);
    }
    for (size_t i = 1; i <= s->count; i++) {
        size_t p = place_of(s->keys[i]), q = s->parent[p];
        write(to, p % LINE, p / LINE, q % LINE, q / LINE, s->g[p], 1, s->legs[p]);
    }
    counts[0] = t.expansions;
    counts[1] = t.tests;
    return found;
}

struct wexxolin_route fast_route(const uint8_t *cells, size_t cells_len, size_t width, size_t height,
                                 size_t sx, size_t sy, size_t gx, size_t gy,
                                 uint64_t *g, size_t g_len, wexxolin_vertex *parents, size_t parents_len,
                                 uint8_t *marks, size_t marks_len, wexxolin_vertex *legs, size_t legs_len,
                                 wexxolin_vertex *path, size_t path_len)
{
    struct wexxolin_route answer = {0, 0, 0, 0.0, 0, 0, 0, 0, 0};
#if LARGEST_SIDE > 127
    static _Thread_local /* too large for a stack */
#endif
    struct search s;
    answer.number = refusal(&s.field, cells, cells_len, width, height, sx, sy, gx, gy, &answer.place);
    if (answer.number)
        return answer;
    size_t stride = width + 1, count = stride * (height + 1), start = sy * stride + sx, goal = gy * stride + gx;
    if (g_len < count || parents_len < count || marks_len < count || legs_len < count) {
        answer.number = 6;
        return answer;
    }
    memset(g, 0, count * sizeof *g);
    memset(parents, 0, count * sizeof *parents);
    memset(marks, 0, count);
    memset(legs, 0, count * sizeof *legs);

    struct slices to = {stride, g, parents, marks, legs};
    uint64_t counts[2];
    if (!run(&s, sy * LINE + sx, gy * LINE + gx, &to, counts)) {
        answer.number = 8;
        answer.expansions = counts[0];
        answer.tests = counts[1];
        return answer;
    }
    size_t needed = 1;
    for (size_t v = goal; v != start; v = parents[v])
        needed++;
    if (needed > path_len) {
        answer.number = 7;
        answer.place = needed;
        return answer;
    }
    for (size_t v = goal, i = needed; i > 0; v = parents[v])
        path[--i] = (wexxolin_vertex)v;
    answer.units = g[goal];
    answer.cells = (double)g[goal] / AXIS_UNITS;
    answer.vertices = needed;
    answer.legs = legs[goal];
    answer.expansions = counts[0];
    answer.tests = counts[1];
    return answer;
}
