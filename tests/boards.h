/* Dice that always fall the same way for a seed, and boards and jobs of several kinds thrown with them. */
#ifndef BOARDS_H
#define BOARDS_H

#include <stddef.h>
#include <stdint.h>

struct dice {
    uint64_t state;
};

struct dice dice_of(uint64_t seed);
uint64_t dice_throw(struct dice *dice);
size_t dice_below(struct dice *dice, size_t count); /* 0 .. count - 1; 0 for count 0 */
void dice_fill(struct dice *dice, void *bytes, size_t count);

/* Each writes width * height cell bytes. */
void board_scattered(struct dice *dice, uint8_t *cells, size_t width, size_t height, size_t percent);
void board_keepouts(struct dice *dice, uint8_t *cells, size_t width, size_t height, size_t count);
void board_maze(struct dice *dice, uint8_t *cells, size_t width, size_t height);
void board_serpentine(struct dice *dice, uint8_t *cells, size_t width, size_t height);
void board_chequered(struct dice *dice, uint8_t *cells, size_t width, size_t height, size_t percent_changed);
void board_pairs(struct dice *dice, uint8_t *cells, size_t width, size_t height, size_t count);
void board_staircases(struct dice *dice, uint8_t *cells, size_t width, size_t height);
void board_lattice(struct dice *dice, uint8_t *cells, size_t width, size_t height, size_t percent_changed);
void board_mirrored(struct dice *dice, uint8_t *cells, size_t width, size_t height, size_t percent);
void board_divided(struct dice *dice, uint8_t *cells, size_t width, size_t height);

/* Blocks the four cells around a vertex. */
void board_enclose(uint8_t *cells, size_t width, size_t height, size_t x, size_t y);

/* How often random cases are thrown: SCALE times, a whole number or a share such as 1/8; 0 times is no scale. */
struct scale {
    size_t times, share;
};

struct scale scale_of(const char *word);

/* n scaled, at least 1. */
size_t scaled(struct scale scale, size_t n);

enum { JOB_ROOM = 70000 };

struct job {
    uint8_t bytes[JOB_ROOM];
    size_t length;
};

/* Add a record, whose last two bytes are 0; add bytes written in hex. */
void job_record(struct job *job, unsigned a, unsigned b, unsigned c, unsigned d, unsigned e, unsigned f);
void job_hex(struct job *job, const char *hex);

/* A job that is accepted; one as long as can be; and what damages one: bytes, the length, the order of two records. */
void job_random(struct dice *dice, struct job *job, size_t most_keepouts, size_t most_nets, size_t largest);
void job_full(struct dice *dice, struct job *job, size_t width, size_t height);
void job_damage(struct dice *dice, struct job *job);

#endif
