/* Rooms for slices that are lent: memory between pages that nobody may touch, so that a step outside is a fault, which is told. */
#ifndef ROOMS_H
#define ROOMS_H

#include <stddef.h>
#include <stdint.h>

/* A slice ends where its room ends, or begins where its room begins. */
enum flush { AT_END, AT_FRONT };

enum access { READ_ONLY, WRITABLE };

struct room {
    const char *name;
    uint8_t *ours;     /* the room's first byte, where the harness may write */
    uint8_t *lent;     /* the same byte as the library has it, which cannot be written in a READ_ONLY room */
    size_t bytes;      /* a multiple of the page */
    size_t at, length; /* the slice that was lent last, in bytes */
    enum flush flush;
    struct room *next; /* the rooms opened before */
};

/* A room for slices up to so many bytes. */
void room_open(struct room *room, const char *name, size_t bytes, enum access access);

/* A room that takes no memory until it is touched: all can be read (as 0), only the first bytes can be written. */
void room_open_far(struct room *room, const char *name, size_t bytes, size_t writable);

/* A slice of so many bytes, as the library is lent it; room->ours + room->at is where the harness fills it. */
void *room_lend(struct room *room, size_t length, enum flush flush);

/* The same, but that an empty slice may come as any pointer, as the dice fall: none of its bytes has to be there. */
struct dice;
void *room_lend_any(struct room *room, size_t length, enum flush flush, struct dice *dice);

/* From now on a fault calls tell with the place that was touched; tell does not come back. */
void rooms_watch(void (*tell)(const char *where));

#endif
