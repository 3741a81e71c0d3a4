/* The steps that several nets share. The vertices on a leg's line cut it into equal steps, and two legs that overlap do so over
   whole steps; so all steps are sorted, and equal ones of different nets are shared. */
#include "picture.h"

#include <stdlib.h>
#include <string.h>

struct step {
    struct point from;
    int8_t dx, dy;
    uint8_t net;
};

static int order(const void *a, const void *b)
{
    const struct step *s = a, *t = b;
    int by[] = { s->from.x - t->from.x, s->from.y - t->from.y, s->dx - t->dx, s->dy - t->dy, s->net - t->net };
    for (int i = 0; i < 5; i++)
        if (by[i])
            return by[i];
    return 0;
}

static bool same_step(const struct step *s, const struct step *t)
{
    return s->from.x == t->from.x && s->from.y == t->from.y && s->dx == t->dx && s->dy == t->dy;
}

static int divisor(int a, int b)
{
    return b == 0 ? a : divisor(b, a % b);
}

/* The steps of a leg: stored if there is a place for them; hands back how many there are. */
static size_t leg_steps(struct point a, struct point b, size_t net, struct step *to)
{
    int dx = b.x - a.x, dy = b.y - a.y, count = divisor(abs(dx), abs(dy));
    for (int i = 0; i < count && to; i++) {
        int px = dx / count, py = dy / count, x = a.x + i * px, y = a.y + i * py;
        bool back = px < 0 || (px == 0 && py < 0);
        if (back) {
            x += px;
            y += py;
        }
        *to++ = (struct step){ { (uint8_t)x, (uint8_t)y }, (int8_t)(back ? -px : px), (int8_t)(back ? -py : py), (uint8_t)net };
    }
    return (size_t)count;
}

static size_t all_steps(const struct picture *p, struct step *to)
{
    size_t count = 0;
    for (size_t n = 0; n < p->nets; n++)
        for (size_t i = 1; p->net[n].shown && i < p->net[n].vertices; i++) {
            const struct point *at = p->points + p->net[n].first + i;
            count += leg_steps(at[-1], at[0], n, to ? to + count : NULL);
        }
    return count;
}

/* Gathers the steps of several nets from the sorted ones. */
static void gather(const struct step *steps, size_t count, struct sharing *s)
{
    size_t known = 0;
    for (size_t i = 0, next; i < count; i = next) {
        struct shared one = { steps[i].from, steps[i].dx, steps[i].dy, known, 0 };
        for (next = i; next < count && same_step(&steps[i], &steps[next]); next++)
            if (next == i || steps[next].net != steps[next - 1].net)
                s->who[known + one.sharers++] = steps[next].net;
        if (one.sharers > 1) {
            known += one.sharers;
            s->step[s->steps++] = one;
        }
    }
}

/* Whether there was memory for it; the process's end frees it. */
bool find_shared(const struct picture *p, struct sharing *s)
{
    size_t count = all_steps(p, NULL);
    struct step *steps = malloc((count + 1) * sizeof *steps);
    s->step = malloc((count + 1) * sizeof *s->step);
    s->who = malloc(count + 1);
    if (!steps || !s->step || !s->who)
        return false;
    all_steps(p, steps);
    qsort(steps, count, sizeof *steps, order);
    gather(steps, count, s);
    free(steps);
    return true;
}
