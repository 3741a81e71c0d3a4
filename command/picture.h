/* What a picture shows: a board, its keepouts, its nets and their paths. */
#ifndef PICTURE_H
#define PICTURE_H

#include "command.h"

struct point {
    uint8_t x, y;
};

struct trace {
    int number;
    const char *name;
    struct point start, goal;
    enum { NOT_ROUTED, NO_PATH, HAS_PATH } state;
    bool counted; /* length and counts are known; records have none */
    uint64_t units, expansions, tests;
    size_t first, vertices; /* its part of the points */
    bool shown;
};

struct picture {
    const struct job *job;
    const struct board *board;
    char title[NAME_ROOM];
    bool expanded; /* show the marks of each search */
    size_t nets;
    struct trace net[MOST_NETS];
    struct point *points; /* of all paths, in memory that grows */
    size_t count, room;
};

/* shared.c: the steps from vertex to vertex that several nets share */
struct shared {
    struct point from;
    int8_t dx, dy;         /* to the next vertex on the leg's line; dx is above 0, or 0 with dy above 0 */
    size_t first, sharers; /* its part of who */
};
struct sharing {
    struct shared *step;
    size_t steps;
    uint8_t *who; /* indices of nets */
};
bool find_shared(const struct picture *p, struct sharing *s);

/* svg.c: the picture */
enum { LEFT = 52, TOP = 96 };

/* Where things stand: pixels to a cell, and what lines and signs are measured by. */
struct frame {
    const struct picture *p;
    const struct sharing *s;
    int cell, width, height, right, bottom;
    double pen, line, end;
    size_t shown, no_paths, pinched;
};

struct box {
    double x, y, w, h;
};

extern const char paper[], ink[], on_blocked[];
double at_x(const struct frame *f, int x);
double at_y(const struct frame *f, int y);
const char *colour_of(size_t index);
double long_as(const char *words, double size);
void put_text(double x, double y, double size, const char *colour, const char *more, const char *words);
void put_picture(const struct picture *p, const struct sharing *s);

/* labels.c: where the nets' numbers and the keepouts' names go */
void put_keepout_names(const struct frame *f);
void put_numbers(const struct frame *f);

#endif
