/* wexxolin unpack, pack and count: packed boards from the camera. Files are bytes, whatever they hold. */
#include "command.h"

/* One byte more than the most, so that a file that is too long is known. */
static uint8_t packed[WEXXOLIN_MOST_PACKED + 1], cells[WEXXOLIN_MOST_CELLS + 1];

struct sides {
    uint64_t width, height;
};

/* W H [FILE]: the sides, and the bytes of the file. */
static int take(int count, char **words, struct sides *sides, uint8_t *bytes, size_t room, size_t *length)
{
    if (!whole_number(words[0], &sides->width) || !whole_number(words[1], &sides->height))
        return complain("'%s %s' are no width and height such as 20 12", words[0], words[1]);
    return read_bytes(bytes, room, length, count > 2 ? words[2] : NULL);
}

int run_unpack(int count, char **words)
{
    struct sides of;
    size_t length;
    int status = take(count, words, &of, packed, sizeof packed, &length);
    if (status != DONE)
        return status;
    wexxolin_pack_answer done = wexxolin_unpack(packed, length, of.width, of.height, cells, sizeof cells);
    if (done.number != WEXXOLIN_DONE)
        return refuse(done.number, done.place, done.second);
    put_bytes(cells, of.width * of.height);
    return DONE;
}

int run_pack(int count, char **words)
{
    struct sides of;
    size_t length;
    int status = take(count, words, &of, cells, sizeof cells, &length);
    if (status != DONE)
        return status;
    wexxolin_pack_answer done = wexxolin_pack(cells, length, of.width, of.height, packed, sizeof packed);
    if (done.number != WEXXOLIN_DONE)
        return refuse(done.number, done.place, done.second);
    put_bytes(packed, (of.width + 7) / 8 * of.height);
    return DONE;
}

int run_count(int count, char **words)
{
    struct sides of;
    size_t length;
    int status = take(count, words, &of, packed, sizeof packed, &length);
    if (status != DONE)
        return status;
    wexxolin_count_packed_answer done = wexxolin_count_packed(packed, length, of.width, of.height);
    if (done.number != WEXXOLIN_DONE)
        return refuse(done.number, done.place, done.second);
    put("%llu\n", (unsigned long long)done.blocked);
    return DONE;
}
