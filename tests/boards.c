#include "boards.h"

#include <stdio.h>
#include <stdlib.h>
#include <string.h>

struct dice dice_of(uint64_t seed)
{
    struct dice dice = {seed * 0x9e3779b97f4a7c15u + 0x2545f4914f6cdd1du};
    if (dice.state == 0)
        dice.state = 1;
    for (int i = 0; i < 8; i++)
        dice_throw(&dice);
    return dice;
}

/* xorshift64*, by Marsaglia and Vigna */
uint64_t dice_throw(struct dice *dice)
{
    dice->state ^= dice->state >> 12;
    dice->state ^= dice->state << 25;
    dice->state ^= dice->state >> 27;
    return dice->state * 0x2545f4914f6cdd1du;
}

size_t dice_below(struct dice *dice, size_t count)
{
    return count ? (size_t)((dice_throw(dice) >> 32) * count >> 32) : 0;
}

void dice_fill(struct dice *dice, void *bytes, size_t count)
{
    uint8_t *to = bytes;
    for (; count > 0;) {
        uint64_t eight = dice_throw(dice);
        size_t part = count < 8 ? count : 8;
        memcpy(to, &eight, part);
        to += part;
        count -= part;
    }
}

struct scale scale_of(const char *word)
{
    char *end = NULL;
    struct scale scale = {(size_t)strtoull(word, &end, 10), 1};
    if (*end == '/')
        scale.share = (size_t)strtoull(end + 1, NULL, 10);
    if (scale.share == 0)
        scale.times = 0;
    return scale;
}

size_t scaled(struct scale scale, size_t n)
{
    size_t times = n * scale.times / scale.share;
    return times ? times : 1;
}

void board_scattered(struct dice *dice, uint8_t *cells, size_t width, size_t height, size_t percent)
{
    for (size_t i = 0; i < width * height; i++)
        cells[i] = dice_below(dice, 100) < percent;
}

void board_keepouts(struct dice *dice, uint8_t *cells, size_t width, size_t height, size_t count)
{
    memset(cells, 0, width * height);
    for (; count > 0; count--) {
        size_t x0 = dice_below(dice, width), y0 = dice_below(dice, height);
        size_t x1 = x0 + 1 + dice_below(dice, width / 3 + 1), y1 = y0 + 1 + dice_below(dice, height / 3 + 1);
        for (size_t y = y0; y < y1 && y < height; y++)
            for (size_t x = x0; x < x1 && x < width; x++)
                cells[y * width + x] = 1;
    }
}

/* Corridors one cell wide between walls one cell thick; every place can be reached from every other one. */
void board_maze(struct dice *dice, uint8_t *cells, size_t width, size_t height)
{
    static const int ways[4][2] = {{1, 0}, {-1, 0}, {0, 1}, {0, -1}};
    static uint16_t trail[64 * 64];
    size_t depth = 1;
    memset(cells, 1, width * height);
    cells[0] = 0;
    trail[0] = 0;
    while (depth > 0) {
        size_t at = trail[depth - 1], x = at % width, y = at / width, first = dice_below(dice, 4), k;
        for (k = 0; k < 4; k++) {
            const int *way = ways[(first + k) % 4];
            long tx = (long)x + 2 * way[0], ty = (long)y + 2 * way[1];
            if (tx < 0 || ty < 0 || tx >= (long)width || ty >= (long)height || !cells[(size_t)ty * width + (size_t)tx])
                continue;
            cells[(y + (size_t)way[1]) * width + x + (size_t)way[0]] = 0;
            cells[(size_t)ty * width + (size_t)tx] = 0;
            trail[depth++] = (uint16_t)((size_t)ty * width + (size_t)tx);
            break;
        }
        if (k == 4)
            depth--;
    }
}

/* Walls with one gap each, at one end and the other in turn; lying or standing. */
void board_serpentine(struct dice *dice, uint8_t *cells, size_t width, size_t height)
{
    int standing = (int)dice_below(dice, 2);
    memset(cells, 0, width * height);
    for (size_t y = 0; y < height; y++)
        for (size_t x = 0; x < width; x++) {
            size_t along = standing ? y : x, across = standing ? x : y, end = (standing ? height : width) - 1;
            if (across % 2 == 1 && along != (across % 4 == 1 ? end : 0))
                cells[y * width + x] = 1;
        }
}

/* Blocked cells that touch only at corners, with some cells changed. */
void board_chequered(struct dice *dice, uint8_t *cells, size_t width, size_t height, size_t percent_changed)
{
    for (size_t y = 0; y < height; y++)
        for (size_t x = 0; x < width; x++)
            cells[y * width + x] = ((x + y) % 2 == 1) != (dice_below(dice, 100) < percent_changed);
}

/* Two blocked cells that touch at a corner, the other two there free, time and again on a free board. */
void board_pairs(struct dice *dice, uint8_t *cells, size_t width, size_t height, size_t count)
{
    memset(cells, 0, width * height);
    for (; count > 0 && width > 1 && height > 1; count--) {
        size_t x = dice_below(dice, width - 1), y = dice_below(dice, height - 1), falling = dice_below(dice, 2);
        uint8_t *cell = cells + y * width + x;
        cell[0] = cell[width + 1] = (uint8_t)falling;
        cell[1] = cell[width] = (uint8_t)!falling;
    }
}

/* Diagonal rows of blocked cells with free ones between. */
void board_staircases(struct dice *dice, uint8_t *cells, size_t width, size_t height)
{
    size_t period = 2 + dice_below(dice, 5), slope = 1 + dice_below(dice, 2), falling = dice_below(dice, 2);
    for (size_t y = 0; y < height; y++)
        for (size_t x = 0; x < width; x++) {
            size_t along = falling ? x + slope * y : x + slope * (height - y);
            cells[y * width + x] = along % period == 0 && dice_below(dice, 100) < 90;
        }
}

/* Blocks of the same size at the same distance, with some cells changed: many routes are equally long, with more and with fewer
   legs. */
void board_lattice(struct dice *dice, uint8_t *cells, size_t width, size_t height, size_t percent_changed)
{
    size_t period = 2 + dice_below(dice, 3), wide = 1 + dice_below(dice, period - 1), high = 1 + dice_below(dice, period - 1);
    size_t left = dice_below(dice, period), top = dice_below(dice, period);
    for (size_t y = 0; y < height; y++)
        for (size_t x = 0; x < width; x++) {
            int block = (x + left) % period < wide && (y + top) % period < high;
            cells[y * width + x] = (uint8_t)(block != (dice_below(dice, 100) < percent_changed));
        }
}

/* Scattered cells, the lower half the upper one mirrored, or the right one the left: every route has its mirror image. */
void board_mirrored(struct dice *dice, uint8_t *cells, size_t width, size_t height, size_t percent)
{
    size_t standing = dice_below(dice, 2);
    board_scattered(dice, cells, width, height, percent);
    for (size_t y = 0; y < height; y++)
        for (size_t x = 0; x < width; x++)
            cells[y * width + x] = standing ? cells[y * width + (x < width - 1 - x ? x : width - 1 - x)]
                                            : cells[(y < height - 1 - y ? y : height - 1 - y) * width + x];
}

/* A wall from side to side, so that the two parts cannot reach each other; some scattered cells besides. */
void board_divided(struct dice *dice, uint8_t *cells, size_t width, size_t height)
{
    board_scattered(dice, cells, width, height, dice_below(dice, 25));
    if (dice_below(dice, 2)) {
        size_t x = dice_below(dice, width);
        for (size_t y = 0; y < height; y++)
            cells[y * width + x] = 1;
    } else {
        memset(cells + dice_below(dice, height) * width, 1, width);
    }
}

void board_enclose(uint8_t *cells, size_t width, size_t height, size_t x, size_t y)
{
    for (size_t j = y ? y - 1 : 0; j <= y && j < height; j++)
        for (size_t i = x ? x - 1 : 0; i <= x && i < width; i++)
            cells[j * width + i] = 1;
}

void job_record(struct job *job, unsigned a, unsigned b, unsigned c, unsigned d, unsigned e, unsigned f)
{
    uint8_t record[8] = {(uint8_t)a, (uint8_t)b, (uint8_t)c, (uint8_t)d, (uint8_t)e, (uint8_t)f, 0, 0};
    memcpy(job->bytes + job->length, record, 8);
    job->length += 8;
}

void job_hex(struct job *job, const char *hex)
{
    unsigned byte;
    for (; *hex; hex++)
        if (*hex != ' ' && sscanf(hex, "%2x", &byte) == 1) {
            job->bytes[job->length++] = (uint8_t)byte;
            hex++;
        }
}

static unsigned below(struct dice *dice, size_t count) { return (unsigned)dice_below(dice, count); }

static void add_net(struct dice *dice, struct job *job, unsigned net, size_t width, size_t height)
{
    unsigned sx = below(dice, width + 1), sy = below(dice, height + 1);
    unsigned gx = below(dice, width + 1), gy = below(dice, height + 1);
    job_record(job, 3, net, sx, sy, gx, gy);
}

static void add_keepout(struct dice *dice, struct job *job, size_t width, size_t height)
{
    unsigned x = below(dice, width), y = below(dice, height), across = 1, down = 1;
    if (below(dice, 100) >= 60)
        across += below(dice, width - x);
    if (below(dice, 100) >= 60)
        down += below(dice, height - y);
    job_record(job, 2, 0, x, y, x + across, y + down);
}

void job_random(struct dice *dice, struct job *job, size_t most_keepouts, size_t most_nets, size_t largest)
{
    unsigned width = 1 + below(dice, largest), height = 1 + below(dice, largest), net = 0;
    job->length = 0;
    job_record(job, 1, 0, width, height, 0, 0);
    for (size_t k = below(dice, most_keepouts + 1); k > 0; k--)
        add_keepout(dice, job, width, height);
    for (size_t k = below(dice, most_nets + 1); k > 0; k--) {
        net += 1 + below(dice, most_nets > 40 ? 2 : 6);
        if (net > 255)
            break;
        add_net(dice, job, net, width, height);
    }
}

void job_full(struct dice *dice, struct job *job, size_t width, size_t height)
{
    job->length = 0;
    job_record(job, 1, 0, (unsigned)width, (unsigned)height, 0, 0);
    for (unsigned i = 0; i < 768; i++) {
        unsigned x = i % (unsigned)width, y = i / (unsigned)width * 2 % (unsigned)height;
        job_record(job, 2, 0, x, y, x + 1, y + 1);
    }
    for (unsigned i = 1; i <= 255; i++)
        add_net(dice, job, i, width, height);
}

static void exchange_records(struct job *job, size_t a, size_t b)
{
    uint8_t kept[8];
    memcpy(kept, job->bytes + 8 * a, 8);
    memcpy(job->bytes + 8 * a, job->bytes + 8 * b, 8);
    memcpy(job->bytes + 8 * b, kept, 8);
}

void job_damage(struct dice *dice, struct job *job)
{
    static const uint8_t bytes[] = {0, 1, 2, 3, 4, 5, 62, 63, 64, 65, 127, 128, 255};
    for (size_t k = 1 + below(dice, 3); k > 0 && job->length > 0; k--) {
        size_t at = below(dice, job->length), a = below(dice, job->length / 8), b = below(dice, job->length / 8);
        switch (below(dice, 8)) {
        case 0: job->bytes[at] ^= (uint8_t)(1 << below(dice, 8)); break;
        case 1: job->bytes[at] = (uint8_t)below(dice, 256); break;
        case 2: job->bytes[at]++; break;
        case 3: job->bytes[at]--; break;
        case 4: exchange_records(job, a, b); break;
        case 5: job->length = below(dice, 100) < 30 ? at : job->length; break;
        default: job->bytes[at] = bytes[below(dice, sizeof bytes)]; break;
        }
    }
}
