/* Compares the calls for packed boards behind include/wexxolin.h with the second packer, answer by answer and byte by byte.

       packed [SCALE [SEED]]

   SCALE 1 is the everyday run: every width and every height. The same SEED gives the same cases. The first difference ends the run
   with 1 and is described on standard error. Each request is made twice: every slice that the library is lent ends at a page that
   nobody may touch, then it begins behind one, and what may only be read cannot be written. A step outside is a difference too. */
#include "boards.h"
#include "rooms.h"
#include "second/packed.h"

#include <stdarg.h>
#include <stdio.h>
#include <stdlib.h>
#include <string.h>

enum {
    LARGEST = 63,
    PAD = 8,    /* bytes watched before and behind each lent slice */
    SPARE = 64, /* how much longer than needed a slice may be */
    MOST_CELLS = LARGEST * LARGEST,
    MOST_PACKED = 8 * LARGEST,
    ROOM = PAD + MOST_CELLS + SPARE + PAD
};

static struct dice dice;
static struct scale scale = {1, 1};

static size_t below(size_t count) { return dice_below(&dice, count); }
static int chance(size_t percent) { return below(100) < percent; }

/* ---------- counting and telling ---------- */

static const char *group_name;
static uint64_t group_calls, group_bytes;

static void begin_group(const char *name)
{
    group_name = name;
    group_calls = group_bytes = 0;
}

static void end_group(void)
{
    printf("%-34s %10llu calls compared, %12llu bytes\n", group_name, (unsigned long long)group_calls,
           (unsigned long long)group_bytes);
    fflush(stdout);
}

static int telling;

static void tell(const char *format, ...)
{
    if (!telling)
        fprintf(stderr, "DIFFERENCE in group '%s'\n", group_name);
    telling = 1;
    va_list arguments;
    va_start(arguments, format);
    vfprintf(stderr, format, arguments);
    va_end(arguments);
    fputc('\n', stderr);
}

/* ---------- a request ---------- */

enum call { UNPACK, PACK, COUNT };
static const char *const names[] = {"unpack", "pack", "count_packed"};

/* The bytes that a call reads, packed ones or cells, and how long a slice it is lent to write. */
struct request {
    enum call call;
    const uint8_t *bytes;
    size_t length, width, height, lent;
};

/* What a call hands back, all of it in one shape; pack and unpack have no count. */
struct answer {
    uint64_t number, place, second, blocked;
};

static struct answer of_pack(struct wexxolin_pack a) { return (struct answer){a.number, a.place, a.second, 0}; }
static struct answer of_count(struct wexxolin_count_packed a) { return (struct answer){a.number, a.place, a.second, a.blocked}; }

static struct answer ask_library(const struct request *r, const uint8_t *bytes, uint8_t *out)
{
    switch (r->call) {
    case UNPACK: return of_pack(wexxolin_unpack(bytes, r->length, r->width, r->height, out, r->lent));
    case PACK: return of_pack(wexxolin_pack(bytes, r->length, r->width, r->height, out, r->lent));
    default: return of_count(wexxolin_count_packed(bytes, r->length, r->width, r->height));
    }
}

static struct answer ask_second(const struct request *r, uint8_t *out)
{
    switch (r->call) {
    case UNPACK: return of_pack(second_unpack(r->bytes, r->length, r->width, r->height, out, r->lent));
    case PACK: return of_pack(second_pack(r->bytes, r->length, r->width, r->height, out, r->lent));
    default: return of_count(second_count_packed(r->bytes, r->length, r->width, r->height));
    }
}

static void tell_request(const struct request *r)
{
    char hex[3 * 32 + 1] = "";
    tell("%s: width %zu, height %zu, %zu bytes given, a slice of %zu lent", names[r->call], r->width, r->height, r->length, r->lent);
    for (size_t i = 0; i < r->length; i++) {
        snprintf(hex + 3 * (i % 32), 4, " %02x", r->bytes[i]);
        if (i % 32 == 31 || i + 1 == r->length)
            tell(" %s", hex);
    }
}

static void end_of_telling(const struct request *r)
{
    tell_request(r);
    exit(1);
}

/* ---------- lending and comparing ---------- */

static struct room read_room, write_room;
static const struct request *in_hand; /* by the library */

static void tell_fault(const char *where)
{
    tell("outside what was lent: %s", where);
    end_of_telling(in_hand);
}

static void open_rooms(void)
{
    room_open(&read_room, "bytes read", ROOM, READ_ONLY);
    room_open(&write_room, "slice written", ROOM, WRITABLE);
    rooms_watch(tell_fault);
}

static uint8_t before[ROOM], theirs[ROOM], ours[ROOM];

/* The slice as the call left it, with the watched bytes; those on the flush side have no place in the room. */
static struct answer call_library(const struct request *r, enum flush flush)
{
    size_t ahead = flush == AT_END ? PAD : 0;
    in_hand = r;
    const uint8_t *bytes = room_lend_any(&read_room, r->length, flush, &dice);
    memcpy(read_room.ours + read_room.at, r->bytes, r->length);
    uint8_t *out = room_lend_any(&write_room, r->lent, flush, &dice);
    memcpy(write_room.ours + write_room.at - ahead, before + PAD - ahead, PAD + r->lent);
    struct answer answer = ask_library(r, bytes, out);
    memcpy(theirs, before, PAD + r->lent + PAD);
    memcpy(theirs + PAD - ahead, write_room.ours + write_room.at - ahead, PAD + r->lent);
    return answer;
}

static void tell_number(const char *what, uint64_t a, uint64_t b)
{
    tell("%-8s library %llu, second packer %llu%s", what, (unsigned long long)a, (unsigned long long)b, a == b ? "" : "   <--");
}

/* Bytes that may be written: those of the whole board with 0, else none. */
static size_t writable(const struct request *r, struct answer b)
{
    if (b.number != 0 || r->call == COUNT)
        return 0;
    return r->call == UNPACK ? r->width * r->height : (r->width + 7) / 8 * r->height;
}

static void check(const struct request *r, struct answer b, enum flush flush)
{
    struct answer a = call_library(r, flush);
    size_t all = PAD + r->lent + PAD, written = writable(r, b);
    group_calls++;
    group_bytes += all;
    if (memcmp(&a, &b, sizeof a) != 0) {
        tell("the answers differ");
        tell_number("number", a.number, b.number);
        tell_number("place", a.place, b.place);
        tell_number("second", a.second, b.second);
        tell_number("blocked", a.blocked, b.blocked);
    }
    for (size_t i = 0, told = 0; i < all && told < 20; i++) {
        int kept = i < PAD || i >= PAD + written;
        if (theirs[i] != ours[i] || (kept && theirs[i] != before[i])) {
            tell("byte %ld: library %u, second packer %u, before %u%s", (long)i - PAD, theirs[i], ours[i], before[i],
                 kept ? " (to be kept)" : "");
            told++;
        }
    }
    if (telling)
        end_of_telling(r);
}

static struct answer compare(const struct request *r)
{
    dice_fill(&dice, before, PAD + r->lent + PAD);
    memcpy(ours, before, PAD + r->lent + PAD);
    struct answer b = ask_second(r, ours + PAD);
    check(r, b, AT_END);
    check(r, b, AT_FRONT);
    return b;
}

/* ---------- boards ---------- */

static uint8_t cells[MOST_CELLS + SPARE], packed[MOST_CELLS + SPARE];

static size_t packed_length(size_t width, size_t height) { return (width + 7) / 8 * height; }

static struct request unpack_of(size_t width, size_t height)
{
    return (struct request){UNPACK, packed, packed_length(width, height), width, height, width * height};
}

static struct request pack_of(size_t width, size_t height)
{
    return (struct request){PACK, cells, width * height, width, height, packed_length(width, height)};
}

static struct answer compare_count(struct request r)
{
    r.call = COUNT, r.lent = 0;
    return compare(&r);
}

/* Cells thrown at random, and their packed bytes in packed, by the second packer. */
static void throw_board(size_t width, size_t height)
{
    static const size_t percents[] = {0, 3, 10, 30, 50, 70, 97, 100};
    board_scattered(&dice, cells, width, height, percents[below(sizeof percents / sizeof *percents)]);
    second_pack(cells, width * height, width, height, packed, sizeof packed);
}

/* ---------- what item 7 promises, apart from the second packer ---------- */

static void promise(int kept, const struct request *r, const char *what)
{
    group_calls++;
    if (kept)
        return;
    tell("not so: %s", what);
    end_of_telling(r);
}

/* "Reading and writing undo each other, and the count equals the number of cell bytes that are 1", by the library alone. */
static void check_promises(size_t width, size_t height)
{
    static uint8_t bits[MOST_PACKED], back[MOST_CELLS], again[MOST_PACKED];
    struct request r = pack_of(width, height);
    size_t bytes = packed_length(width, height), blocked = 0;
    in_hand = &r;
    promise(wexxolin_pack(cells, width * height, width, height, bits, bytes).number == 0, &r, "cells are written");
    promise(wexxolin_unpack(bits, bytes, width, height, back, width * height).number == 0, &r, "what was written is read");
    promise(memcmp(back, cells, width * height) == 0, &r, "reading undoes writing");
    wexxolin_pack(back, width * height, width, height, again, bytes);
    promise(memcmp(again, bits, bytes) == 0, &r, "writing undoes reading");
    for (size_t i = 0; i < width * height; i++)
        blocked += back[i] == 1;
    promise(wexxolin_count_packed(bits, bytes, width, height).blocked == blocked, &r, "the count is that of the cell bytes that are 1");
}

/* ---------- group: boards by hand ---------- */

/* Written by hand from item 7's words; cells as digits, row after row, and their packed bytes. */
static const struct {
    size_t width, height;
    const char *cells;
    uint64_t blocked;
    uint8_t packed[16];
} by_hand[] = {
    {1, 1, "0", 0, {0x00}},
    {1, 1, "1", 1, {0x80}},
    {3, 2, "100" "001", 2, {0x80, 0x20}},
    {7, 1, "1111111", 7, {0xfe}},
    {7, 2, "0000001" "1000000", 2, {0x02, 0x80}},
    {8, 1, "10100101", 4, {0xa5}},
    {8, 2, "00000001" "10000000", 2, {0x01, 0x80}},
    {9, 1, "000000011", 2, {0x01, 0x80}},
    {9, 2, "000000001" "100000000", 2, {0x00, 0x80, 0x80, 0x00}},
    {16, 1, "1000000000000001", 2, {0x80, 0x01}},
    {1, 5, "10110", 3, {0x80, 0x00, 0x80, 0x80, 0x00}},
    {63, 1, "111111111111111111111111111111111111111111111111111111111111111", 63,
     {0xff, 0xff, 0xff, 0xff, 0xff, 0xff, 0xff, 0xfe}},
    {63, 1, "100000000000000000000000000000000000000000000000000000000000001", 2,
     {0x80, 0x00, 0x00, 0x00, 0x00, 0x00, 0x00, 0x02}},
};

static void expect_bytes(const struct request *r, const uint8_t *wanted, size_t length)
{
    promise(memcmp(ours + PAD, wanted, length) == 0, r, "the bytes are those written by hand");
}

static void expect(const struct request *r, uint64_t number, uint64_t place)
{
    struct answer b = compare(r);
    promise(b.number == number && b.place == place && b.second == 0, r, "the answer is the one written by hand");
}

static void group_by_hand(void)
{
    begin_group("packed, boards by hand");
    for (size_t k = 0; k < sizeof by_hand / sizeof *by_hand; k++) {
        size_t width = by_hand[k].width, height = by_hand[k].height, bytes = packed_length(width, height);
        for (size_t i = 0; i < width * height; i++)
            cells[i] = (uint8_t)(by_hand[k].cells[i] - '0');
        memcpy(packed, by_hand[k].packed, bytes);
        struct request write = pack_of(width, height), read = unpack_of(width, height);
        expect(&write, 0, 0);
        expect_bytes(&write, packed, bytes);
        expect(&read, 0, 0);
        expect_bytes(&read, cells, width * height);
        promise(compare_count(read).blocked == by_hand[k].blocked, &read, "the count is the one written by hand");
    }
    end_group();
}

/* Refusals written by hand from the table and item 7, each beside what is still accepted. */
static void group_refused_by_hand(void)
{
    static const uint8_t seven[4] = {0xfe, 0xfe, 0xff, 0xfe}, nine[4] = {0x00, 0x80, 0x00, 0xc0}, bad[4] = {1, 0, 2, 255};
    static const struct {
        struct request request;
        uint64_t number, place;
    } rows[] = {
        {{UNPACK, seven, 2, 7, 2, 14}, 0, 0},
        {{UNPACK, seven, 2, 7, 2, 13}, 19, 0},
        {{UNPACK, seven, 3, 7, 2, 14}, 29, 0},
        {{UNPACK, seven, 1, 7, 2, 14}, 29, 0},
        {{UNPACK, seven, 4, 7, 4, 28}, 30, 2},
        {{UNPACK, seven, 4, 7, 4, 0}, 30, 2},
        {{UNPACK, seven, 4, 8, 4, 32}, 0, 0},
        {{UNPACK, seven, 4, 7, 3, 0}, 29, 0},
        {{UNPACK, nine, 4, 9, 2, 18}, 30, 3},
        {{UNPACK, nine, 4, 10, 2, 20}, 0, 0},
        {{UNPACK, nine, 2, 9, 1, 9}, 0, 0},
        {{UNPACK, nine, 3, 9, 2, 18}, 29, 0},
        {{UNPACK, nine, 0, 0, 0, 0}, 1, 0},
        {{UNPACK, nine, 0, 63, 0, 0}, 1, 0},
        {{UNPACK, nine, 4, 64, 1, 64}, 1, 0},
        {{COUNT, seven, 4, 7, 4, 0}, 30, 2},
        {{COUNT, seven, 3, 7, 4, 0}, 29, 0},
        {{COUNT, nine, 4, 9, 2, 0}, 30, 3},
        {{COUNT, nine, 4, 4, 64, 0}, 1, 0},
        {{PACK, bad, 2, 2, 1, 1}, 0, 0},
        {{PACK, bad, 2, 2, 1, 0}, 21, 0},
        {{PACK, bad, 3, 2, 1, 0}, 2, 0},
        {{PACK, bad, 1, 2, 1, 1}, 2, 0},
        {{PACK, bad, 3, 3, 1, 1}, 3, 2},
        {{PACK, bad, 4, 2, 2, 0}, 3, 2},
        {{PACK, bad, 4, 64, 1, 8}, 1, 0},
        {{PACK, bad, 0, 1, 0, 8}, 1, 0},
    };
    begin_group("packed, refusals by hand");
    for (size_t k = 0; k < sizeof rows / sizeof *rows; k++)
        expect(&rows[k].request, rows[k].number, rows[k].place);
    end_group();
}

/* ---------- group: every width and height ---------- */

/* Rooms exactly long enough, one short, one longer, none, and some more. */
static void compare_by_rooms(struct request r)
{
    size_t needed = r.lent, rooms[] = {needed, needed - 1, needed + 1, 0, needed + 2 + below(SPARE - 2)};
    for (size_t k = 0; k < sizeof rooms / sizeof *rooms; k++) {
        r.lent = rooms[k];
        compare(&r);
    }
}

static void for_every_size(const char *name, void (*of)(size_t width, size_t height))
{
    begin_group(name);
    for (size_t turn = 0; turn < scaled(scale, 1); turn++)
        for (size_t width = 1; width <= LARGEST; width++)
            for (size_t height = 1; height <= LARGEST; height++)
                of(width, height);
    end_group();
}

static void whole_board(size_t width, size_t height)
{
    throw_board(width, height);
    compare_by_rooms(pack_of(width, height));
    compare_by_rooms(unpack_of(width, height));
    compare_count(unpack_of(width, height));
    check_promises(width, height);
}

/* ---------- group: filling bits ---------- */

static void compare_filling(size_t width, size_t height)
{
    struct request r = unpack_of(width, height);
    compare(&r);
    compare_count(r);
    if (chance(20)) {
        r.lent = below(r.lent);
        compare(&r);
    }
}

/* Sets bit `bit` of row y, counted from the high bit of its first byte. */
static void set_bit(size_t width, size_t y, size_t bit) { packed[y * ((width + 7) / 8) + bit / 8] |= (uint8_t)(128 >> bit % 8); }

/* Each filling bit by itself in the first and the last row and in one between; two rows at once; all of them. */
static void filling_bits(size_t width, size_t height)
{
    size_t bits = (width + 7) / 8 * 8, rows[] = {0, height - 1, below(height)};
    for (size_t bit = width; bit < bits; bit++)
        for (size_t k = 0; k < 3; k++)
            if (height <= 3 || k == bit % 3 || chance(15)) {
                throw_board(width, height);
                set_bit(width, rows[k], bit);
                compare_filling(width, height);
            }
    if (bits == width)
        return;
    throw_board(width, height);
    for (size_t k = 0; k < 2; k++)
        set_bit(width, below(height), width + below(bits - width));
    compare_filling(width, height);
    for (size_t y = 0; y < height; y++)
        set_bit(width, y, width + below(bits - width));
    compare_filling(width, height);
}

/* ---------- group: lengths ---------- */

/* One too short and too long, by a row, none, and what another rule for rows would ask for. */
static void wrong_lengths(size_t width, size_t height)
{
    size_t row = (width + 7) / 8, needed = row * height, count = width * height;
    size_t lengths[] = {needed - 1, needed + 1, needed - row, needed + row, 0, (count + 7) / 8, count / 8, count, (width / 8 + 1) * height,
                        width / 8 * height, row * width};
    throw_board(width, height);
    for (size_t k = 0; k < sizeof lengths / sizeof *lengths; k++) {
        struct request r = unpack_of(width, height);
        r.length = lengths[k];
        r.lent = chance(80) ? r.lent : 0;
        if (r.length > sizeof packed)
            continue;
        memset(packed + needed, chance(50) ? 255 : 0, sizeof packed - needed);
        compare(&r);
        compare_count(r);
    }
    size_t counts[] = {count - 1, count + 1, count - width, count + width, 0, needed, 8 * needed};
    memset(cells + count, chance(50) ? 2 : 0, sizeof cells - count);
    for (size_t k = 0; k < sizeof counts / sizeof *counts; k++) {
        struct request r = pack_of(width, height);
        r.length = counts[k];
        r.lent = chance(80) ? r.lent : 0;
        if (r.length <= sizeof cells)
            compare(&r);
    }
}

/* ---------- group: cell bytes ---------- */

/* A byte that is not 0 or 1: the first, the last, one anywhere, and two, of which the first is named; with a short slice too. */
static void bad_cells(size_t width, size_t height)
{
    static const uint8_t bytes[] = {2, 3, 4, 128, 129, 254, 255};
    size_t last = width * height - 1, places[] = {0, last, below(last + 1), below(last + 1)};
    for (size_t k = 0; k < 4; k++) {
        if (height > 3 && k != (width + height) % 4)
            continue;
        throw_board(width, height);
        struct request r = pack_of(width, height);
        cells[places[k]] = bytes[below(sizeof bytes)];
        if (chance(50))
            cells[below(last + 1)] = bytes[below(sizeof bytes)];
        r.lent = chance(80) ? r.lent : below(r.lent);
        compare(&r);
    }
}

/* ---------- group: sides ---------- */

static const size_t sides[] = {0,          1,           7,           8,           9,           62,           63,           64,
                               65,         72,          255,         256,         257,         319,          65535,        65536,
                               65599,      0x7fffffffu, 0x80000000u, 0xffffffffu, 0x100000000u, 0x100000003u, 0x8000000000000000u,
                               0x8000000000000001u, SIZE_MAX / 3, SIZE_MAX - 7, SIZE_MAX - 6, SIZE_MAX - 1, SIZE_MAX};
enum { SIDES = sizeof sides / sizeof *sides };

/* Sides at their bounds and far beyond, with lengths that are right, or are right once the product has wrapped round. */
static void group_sides(void)
{
    begin_group("packed, sides at their bounds");
    for (size_t i = 0; i < SIDES; i++)
        for (size_t j = 0; j < SIDES; j++) {
            size_t width = sides[i], height = sides[j], row = (width + 7) / 8;
            size_t lengths[] = {0, 1, row * height, (width / 8 + 1) * height, width * height, 8 * height, 504, 512, 63 * 63};
            for (size_t k = 0; k < sizeof lengths / sizeof *lengths; k++) {
                if (lengths[k] > sizeof packed)
                    continue;
                memset(packed, k % 2 ? 255 : 0, sizeof packed);
                memset(cells, k % 3 == 1, sizeof cells);
                struct request r = {UNPACK, packed, lengths[k], width, height, k % 2 ? 0 : MOST_CELLS};
                compare(&r);
                compare_count(r);
                struct request w = {PACK, cells, lengths[k], width, height, k % 2 ? 0 : MOST_PACKED};
                compare(&w);
            }
        }
    end_group();
}

/* ---------- group: several things wrong at once ---------- */

static size_t changed(size_t length) { return chance(70) ? length : length + 2 - below(5); }

static void group_mixtures(void)
{
    begin_group("packed, refusals mixed");
    for (size_t k = 0; k < scaled(scale, 40000); k++) {
        size_t width = 1 + below(20), height = 1 + below(4), at = below(width * height), bit = below(8 * packed_length(width, height));
        throw_board(width, height);
        struct request r = unpack_of(width, height), w = pack_of(width, height);
        if (chance(20))
            packed[bit / 8] |= (uint8_t)(128 >> bit % 8);
        if (chance(20))
            cells[at] = (uint8_t)below(256);
        if (chance(10))
            r.width = w.width = sides[below(SIDES)];
        if (chance(10))
            r.height = w.height = sides[below(SIDES)];
        r.length = changed(r.length) % sizeof packed, w.length = changed(w.length) % sizeof cells;
        r.lent = changed(r.lent) % sizeof cells, w.lent = changed(w.lent) % sizeof packed;
        compare(&r);
        compare_count(r);
        compare(&w);
    }
    end_group();
}

int main(int argc, char **argv)
{
    uint64_t seed = argc > 2 ? strtoull(argv[2], NULL, 0) : 1;
    scale = scale_of(argc > 1 ? argv[1] : "1");
    if (scale.times == 0) {
        fprintf(stderr, "usage: packed [SCALE [SEED]], SCALE at least 1\n");
        return 2;
    }
    dice = dice_of(seed);
    open_rooms();
    group_by_hand();
    group_refused_by_hand();
    for_every_size("packed, every width and height", whole_board);
    for_every_size("packed, filling bits", filling_bits);
    for_every_size("packed, wrong lengths", wrong_lengths);
    for_every_size("packed, cell bytes", bad_cells);
    group_sides();
    group_mixtures();
    return 0;
}
