/* Compares the calls for route files behind include/wexxolin.h with the second reader and writer, answer by answer and byte by byte.

       routes [SCALE [SEED]]

   SCALE 1 is the everyday run. The same SEED gives the same cases. The first difference ends the run with 1 and is described on
   standard error. Each request is made twice: every slice that the library is lent ends at a page that nobody may touch, then it
   begins behind one, and what may only be read cannot be written. A step outside is a difference too. */
#include "boards.h"
#include "rooms.h"
#include "second/routes.h"

#include <stdarg.h>
#include <stdio.h>
#include <stdlib.h>
#include <string.h>

enum {
    PLACES = 65536,
    SPARE = 16,                              /* how many entries longer than needed a slice may be */
    MOST = PLACES + 300,                     /* records of a file */
    ROOM = 8 * (MOST + SPARE),               /* bytes of a slice */
    SLICES = 5
};

static struct dice dice;
static struct scale scale = {1, 1};

static size_t below(size_t count) { return dice_below(&dice, count); }
static int chance(size_t percent) { return below(100) < percent; }

/* ---------- counting and telling ---------- */

static const char *group_name;
static uint64_t group_calls, group_bytes;

static void begin_group(const char *name)
{
    group_name = name;
    group_calls = group_bytes = 0;
}

static void end_group(void)
{
    printf("%-34s %10llu calls compared, %12llu bytes\n", group_name, (unsigned long long)group_calls,
           (unsigned long long)group_bytes);
    fflush(stdout);
}

static int telling;

static void tell(const char *format, ...)
{
    if (!telling)
        fprintf(stderr, "DIFFERENCE in group '%s'\n", group_name);
    telling = 1;
    va_list arguments;
    va_start(arguments, format);
    vfprintf(stderr, format, arguments);
    va_end(arguments);
    fputc('\n', stderr);
}

/* ---------- a request ---------- */

enum call { READ, WRITE, POINTS };
static const char *const names[] = {"read_routes", "write_routes", "path_points"};

/* The slices of each call in the order of its arguments: the size of an entry, and whether the call may write it. */
static const struct {
    size_t slices, size[SLICES];
    int written[SLICES];
} shapes[] = {
    {5, {1, 1, sizeof(size_t), 1, 1}, {0, 1, 1, 1, 1}},
    {5, {1, sizeof(size_t), 1, 1, 1}, {0, 0, 0, 0, 1}},
    {3, {sizeof(wexxolin_vertex), 1, 1}, {0, 1, 1}},
};

struct request {
    enum call call;
    size_t width, length[SLICES]; /* in entries */
};

/* What a call hands back, all of it in one shape. */
struct answer {
    uint64_t number, place, second, a, b;
};

static struct answer ask(const struct request *r, int library, void *const s[SLICES])
{
    const size_t *n = r->length;
    if (r->call == READ) {
        struct wexxolin_read_routes a = library ? wexxolin_read_routes(s[0], n[0], s[1], n[1], s[2], n[2], s[3], n[3], s[4], n[4])
                                                : second_read_routes(s[0], n[0], s[1], n[1], s[2], n[2], s[3], n[3], s[4], n[4]);
        return (struct answer){a.number, a.place, a.second, a.nets, a.points};
    }
    if (r->call == WRITE) {
        struct wexxolin_write_routes a = library ? wexxolin_write_routes(s[0], n[0], s[1], n[1], s[2], n[2], s[3], n[3], s[4], n[4])
                                                 : second_write_routes(s[0], n[0], s[1], n[1], s[2], n[2], s[3], n[3], s[4], n[4]);
        return (struct answer){a.number, a.place, a.second, a.records, 0};
    }
    struct wexxolin_path_points a = library ? wexxolin_path_points(s[0], n[0], r->width, s[1], n[1], s[2], n[2])
                                            : second_path_points(s[0], n[0], r->width, s[1], n[1], s[2], n[2]);
    return (struct answer){a.number, a.place, a.second, 0, 0};
}

/* ---------- lending and comparing ---------- */

static struct room rooms[SLICES];                                    /* written ones and read ones alike are refilled */
static struct room read_rooms[SLICES];
static uint8_t before[SLICES][ROOM], theirs[SLICES][ROOM], ours[SLICES][ROOM]; /* before: what the slices hold for the call */
static const struct request *in_hand;                                /* by the library */

static void end_of_telling(const struct request *r)
{
    tell("%s: width %zu, slices of %zu, %zu, %zu, %zu, %zu entries", names[r->call], r->width, r->length[0], r->length[1], r->length[2],
         r->length[3], r->length[4]);
    for (size_t i = 0; i < r->length[0] && i < 400; i += 8)
        tell("  %02x %02x %02x %02x %02x %02x %02x %02x", before[0][i], before[0][i + 1], before[0][i + 2], before[0][i + 3], before[0][i + 4],
             before[0][i + 5], before[0][i + 6], before[0][i + 7]);
    exit(1);
}

static void tell_fault(const char *where)
{
    tell("outside what was lent: %s", where);
    end_of_telling(in_hand);
}

static void open_rooms(void)
{
    static const char *const which[] = {"first slice", "second slice", "third slice", "fourth slice", "fifth slice"};
    for (size_t k = 0; k < SLICES; k++) {
        room_open(&rooms[k], which[k], ROOM, WRITABLE);
        room_open(&read_rooms[k], which[k], ROOM, READ_ONLY);
    }
    rooms_watch(tell_fault);
}

static size_t bytes_of(const struct request *r, size_t k) { return r->length[k] * shapes[r->call].size[k]; }

static struct answer call_library(const struct request *r, enum flush flush)
{
    void *lent[SLICES];
    size_t slices = shapes[r->call].slices;
    in_hand = r;
    for (size_t k = 0; k < slices; k++) {
        struct room *room = shapes[r->call].written[k] ? &rooms[k] : &read_rooms[k];
        lent[k] = room_lend_any(room, bytes_of(r, k), flush, &dice);
        memcpy(room->ours + room->at, before[k], bytes_of(r, k));
    }
    struct answer answer = ask(r, 1, lent);
    for (size_t k = 0; k < slices; k++) {
        struct room *room = shapes[r->call].written[k] ? &rooms[k] : &read_rooms[k];
        memcpy(theirs[k], room->ours + room->at, bytes_of(r, k));
    }
    return answer;
}

static void check(const struct request *r, struct answer b, enum flush flush)
{
    struct answer a = call_library(r, flush);
    group_calls++;
    if (memcmp(&a, &b, sizeof a) != 0)
        tell("library  %llu at %llu %llu, values %llu %llu\nsecond   %llu at %llu %llu, values %llu %llu", (unsigned long long)a.number,
             (unsigned long long)a.place, (unsigned long long)a.second, (unsigned long long)a.a, (unsigned long long)a.b,
             (unsigned long long)b.number, (unsigned long long)b.place, (unsigned long long)b.second, (unsigned long long)b.a,
             (unsigned long long)b.b);
    for (size_t k = 0; k < shapes[r->call].slices; k++) {
        group_bytes += bytes_of(r, k);
        if (memcmp(theirs[k], ours[k], bytes_of(r, k)) != 0)
            tell("slice %zu holds something else afterwards", k);
        if (b.number != 0 && memcmp(theirs[k], before[k], bytes_of(r, k)) != 0)
            tell("slice %zu was written on refusal", k);
    }
    if (telling)
        end_of_telling(r);
}

/* The slices that are read stand in before; those that are written get any bytes. */
static struct answer compare(const struct request *r)
{
    void *lent[SLICES];
    for (size_t k = 0; k < shapes[r->call].slices; k++) {
        if (shapes[r->call].written[k])
            dice_fill(&dice, before[k], bytes_of(r, k));
        memcpy(ours[k], before[k], bytes_of(r, k));
        lent[k] = ours[k];
    }
    struct answer b = ask(r, 0, lent);
    check(r, b, AT_END);
    check(r, b, AT_FRONT);
    return b;
}

static void promise(int kept, const struct request *r, const char *what)
{
    group_calls++;
    if (kept)
        return;
    tell("not so: %s", what);
    end_of_telling(r);
}

/* ---------- route files ---------- */

static uint8_t *const file = before[0];
static size_t records;

static void add(unsigned type, unsigned net, size_t place, unsigned x, unsigned y)
{
    uint8_t bytes[8] = {(uint8_t)type, (uint8_t)net, (uint8_t)place, (uint8_t)(place >> 8), (uint8_t)x, (uint8_t)y, 0, 0};
    memcpy(file + 8 * records++, bytes, 8);
}

/* A file that passes: nets with rising numbers, some with no path, of up to so many points each. */
static void throw_file(size_t nets, size_t points)
{
    records = 0;
    unsigned net = 0;
    for (size_t k = 0; k < nets && net < 255 && records < MOST; k++) {
        net += 1 + (unsigned)below(nets > 100 ? 1 : 3);
        if (net > 255)
            break;
        size_t count = chance(20) ? 0 : 1 + below(points);
        if (count == 0)
            add(5, net, 0, 0, 0);
        for (size_t p = 0; p < count && records < MOST; p++)
            add(4, net, p, (unsigned)below(256), (unsigned)below(256));
    }
}

static struct request read_of(void)
{
    size_t most = records + SPARE;
    return (struct request){READ, 0, {8 * records, 255 + SPARE, 255 + SPARE, most, most}};
}

/* Rooms exactly long enough for what is there, one short in each slice, and longer. */
static void compare_rooms(void)
{
    struct request r = read_of();
    struct answer b = compare(&r);
    if (b.number != 0)
        return;
    size_t needed[] = {8 * records, b.a, b.a, b.b, b.b};
    memcpy(r.length, needed, sizeof needed);
    promise(compare(&r).number == 0, &r, "slices that are just long enough are accepted");
    for (size_t k = 1; k < SLICES; k++) {
        memcpy(r.length, needed, sizeof needed);
        if (needed[k] == 0)
            continue;
        r.length[k]--;
        promise(compare(&r).number == 21, &r, "a slice that is one entry too short is refused by 21");
    }
}

/* What was read is written: the same bytes; what was written is read: the same routes. By the library alone, after a read. */
static void check_both_ways(void)
{
    static uint8_t nets[255], xs[MOST], ys[MOST], again_nets[255], again_xs[MOST], again_ys[MOST], back[ROOM];
    static size_t counts[255], again_counts[255];
    struct request r = read_of();
    struct wexxolin_read_routes a = wexxolin_read_routes(file, 8 * records, nets, 255, counts, 255, xs, MOST, ys, MOST);
    promise(a.number == 0, &r, "the file is read");
    struct wexxolin_write_routes b = wexxolin_write_routes(nets, a.nets, counts, a.nets, xs, a.points, ys, a.points, back, 8 * records);
    promise(b.number == 0 && b.records == records, &r, "what was read is written");
    promise(memcmp(back, file, 8 * records) == 0, &r, "writing what was read gives the same bytes");
    struct wexxolin_read_routes c = wexxolin_read_routes(back, 8 * records, again_nets, 255, again_counts, 255, again_xs, MOST, again_ys, MOST);
    promise(c.number == 0 && c.nets == a.nets && c.points == a.points && memcmp(again_nets, nets, a.nets) == 0
                && memcmp(again_counts, counts, a.nets * sizeof *counts) == 0 && memcmp(again_xs, xs, a.points) == 0
                && memcmp(again_ys, ys, a.points) == 0,
            &r, "reading what was written gives the same routes");
}

static void group_whole_files(void)
{
    begin_group("routes, whole files");
    for (size_t k = 0; k < scaled(scale, 3000); k++) {
        throw_file(below(k % 10 == 0 ? 255 : 12), 1 + below(k % 7 == 0 ? 600 : 9));
        compare_rooms();
        check_both_ways();
    }
    end_group();
}

/* ---------- group: by hand ---------- */

/* Files written by hand from item 1's words, with what each is answered by. */
static const struct {
    const char *bytes;
    uint64_t number, place, second, nets, points;
} by_hand[] = {
    {"", 0, 0, 0, 0, 0},
    {"0401000007090000", 0, 0, 0, 1, 1},
    {"0501000000000000", 0, 0, 0, 1, 0},
    {"0401000000000000 040101000a0b0000 04020000ffff0000 0503000000000000", 0, 0, 0, 3, 3},
    {"04010000000000", 11, 0, 0, 0, 0},
    {"0401000000000000 04", 11, 0, 0, 0, 0},
    {"0301000000000000", 13, 0, 0, 0, 0},
    {"0600000000000000", 13, 0, 0, 0, 0},
    {"0100020200000000", 13, 0, 0, 0, 0},
    {"0401000000000000 0000000000000000", 13, 1, 0, 0, 0},
    {"03000000000000ff", 13, 0, 0, 0, 0},
    {"0401000000000100", 23, 0, 6, 0, 0},
    {"0401000000000001", 23, 0, 7, 0, 0},
    {"0401000000000101", 23, 0, 6, 0, 0},
    {"0501010000000000", 23, 0, 2, 0, 0},
    {"0501000000010000", 23, 0, 5, 0, 0},
    {"0500000000000001", 23, 0, 7, 0, 0},
    {"0401000000000000 0400000000000001", 23, 1, 7, 0, 0},
    {"0400000000000000", 22, 0, 0, 0, 0},
    {"0500000000000000", 22, 0, 0, 0, 0},
    {"0401010000000000", 22, 0, 0, 0, 0},
    {"0401000100000000", 22, 0, 0, 0, 0},
    {"0402000000000000 0401000000000000", 22, 1, 0, 0, 0},
    {"0401000000000000 0401000000000000", 22, 1, 0, 0, 0},
    {"0401000000000000 0401020000000000", 22, 1, 0, 0, 0},
    {"0401000000000000 0401000100000000", 22, 1, 0, 0, 0},
    {"0401000000000000 0402010000000000", 22, 1, 0, 0, 0},
    {"0401000000000000 0501000000000000", 22, 1, 0, 0, 0},
    {"0501000000000000 0401000000000000", 22, 1, 0, 0, 0},
    {"0501000000000000 0401010000000000", 22, 1, 0, 0, 0},
    {"0501000000000000 0501000000000000", 22, 1, 0, 0, 0},
    {"0401000000000000 0502000000000000 0401010000000000", 22, 2, 0, 0, 0},
    {"0400000000000000 0301000000000000", 22, 0, 0, 0, 0},
    {"04ff000000000000", 0, 0, 0, 1, 1},
};

static size_t from_hex(const char *hex)
{
    size_t length = 0;
    for (; *hex; hex += 2) {
        char two[3] = {hex[0], hex[1], 0};
        if (*hex == ' ') {
            hex--;
            continue;
        }
        file[length++] = (uint8_t)strtoul(two, NULL, 16);
    }
    return length;
}

static void group_by_hand(void)
{
    begin_group("routes, files by hand");
    for (size_t k = 0; k < sizeof by_hand / sizeof *by_hand; k++) {
        struct request r = {READ, 0, {from_hex(by_hand[k].bytes), 4, 4, 4, 4}};
        struct answer b = compare(&r);
        promise(b.number == by_hand[k].number && b.place == by_hand[k].place && b.second == by_hand[k].second && b.a == by_hand[k].nets
                    && b.b == by_hand[k].points,
                &r, "the answer is the one written by hand");
    }
    end_group();
}

/* ---------- group: damaged files ---------- */

static void damage(void)
{
    size_t i = below(records), at = 8 * i;
    switch (below(9)) {
    case 0: file[at + below(8)] = (uint8_t)below(256); break;
    case 1: file[at] = (uint8_t)below(8); break;
    case 2: file[at + 1] = (uint8_t)(file[at + 1] + 2 - below(5)); break;
    case 3: file[at + 2] = (uint8_t)(file[at + 2] + 2 - below(5)); break;
    case 4: file[at + 3] = (uint8_t)(1 + below(2)); break;
    case 5: file[at + 6 + below(2)] = (uint8_t)(1 + below(255)); break;
    case 6: memcpy(file + at, file + 8 * below(records), 8); break;
    case 7: file[at] ^= 1; break;
    default: file[at + 2 + below(6)] = 1; break;
    }
}

static void group_damaged(void)
{
    begin_group("routes, damaged files");
    for (size_t k = 0; k < scaled(scale, 60000); k++) {
        throw_file(1 + below(6), 1 + below(5));
        for (size_t n = 1 + below(3); n > 0; n--)
            damage();
        struct request r = read_of();
        if (chance(10))
            r.length[0] -= 1 + below(7);
        for (size_t s = 1; s < SLICES; s++)
            if (chance(5))
                r.length[s] = below(8);
        compare(&r);
    }
    end_group();
}

/* ---------- group: writing ---------- */

static size_t *const counts = (size_t *)before[1];

/* Routes as they are lent to the writer: number, count and points of each net. */
static struct request throw_routes(size_t nets, size_t points)
{
    size_t total = 0, all = 0;
    for (size_t k = 0; k < nets; k++) {
        before[0][k] = (uint8_t)((k == 0 ? 0 : before[0][k - 1]) + 1 + below(3));
        counts[k] = chance(25) ? 0 : 1 + below(points);
        total += counts[k];
        all += counts[k] == 0 ? 1 : counts[k];
    }
    dice_fill(&dice, before[2], total + SPARE);
    dice_fill(&dice, before[3], total + SPARE);
    return (struct request){WRITE, 0, {nets, nets, total, total, 8 * all}};
}

static void group_writing(void)
{
    begin_group("routes, writing");
    for (size_t k = 0; k < scaled(scale, 40000); k++) {
        struct request r = throw_routes(below(9), 1 + below(k % 50 == 0 ? 700 : 6));
        promise(compare(&r).number == 0, &r, "slices that are just long enough are accepted");
        for (size_t s = 1; s < SLICES; s++) {
            struct request shorter = r;
            if (r.length[s] == 0 || k % 4 != 0)
                continue;
            shorter.length[s]--;
            promise(compare(&shorter).number == 21, &shorter, "a slice that is one entry too short is refused by 21");
        }
        for (size_t s = 0; s < SLICES; s++)
            if (s == 4 || chance(30))
                r.length[s] += s == 0 ? 0 : below(SPARE);
        if (r.length[0] > 0 && chance(40))
            before[0][below(r.length[0])] = (uint8_t)below(12);
        if (chance(20))
            r.length[below(SLICES)] = below(5);
        compare(&r);
    }
    end_group();
}

/* Paths of as many points as two bytes hold places for, and more. */
static void group_long_paths(void)
{
    static const size_t lengths[] = {PLACES - 1, PLACES, PLACES + 1, PLACES + 2, PLACES + 200};
    begin_group("routes, long paths");
    for (size_t k = 0; k < sizeof lengths / sizeof *lengths; k++)
        for (size_t first = 0; first < 3; first++) {
            struct request r = throw_routes(3, 2);
            counts[first] = lengths[k];
            size_t total = counts[0] + counts[1] + counts[2];
            dice_fill(&dice, before[2], total);
            dice_fill(&dice, before[3], total);
            r.length[2] = r.length[3] = total;
            r.length[4] = 8 * (total + 2);
            struct answer b = compare(&r);
            promise((lengths[k] <= PLACES) == (b.number == 0), &r, "65,536 points are the most");
            if (b.number != 0) {
                size_t ahead = 0;
                for (size_t n = 0; n < first; n++)
                    ahead += counts[n] == 0 ? 1 : counts[n];
                promise(b.number == 22 && b.place == ahead + PLACES, &r, "22 names the record whose place is 65,536");
            }
        }
    static const size_t enormous[] = {(size_t)1 << 31, (size_t)1 << 32, (size_t)1 << 63, SIZE_MAX - 65536, SIZE_MAX - 1, SIZE_MAX};
    for (size_t k = 0; k < sizeof enormous / sizeof *enormous; k++) {
        struct request r = throw_routes(3, 2);
        counts[1] = enormous[k];
        promise(compare(&r).number == 22, &r, "a count far beyond is refused by 22");
    }
    records = 0;
    for (size_t p = 0; p < PLACES; p++)
        add(4, 7, p, (unsigned)below(256), (unsigned)below(256));
    compare_rooms();
    check_both_ways();
    add(4, 7, 0, 1, 1);
    compare_rooms();
    end_group();
}

/* ---------- group: paths into points ---------- */

static void group_points(void)
{
    static const size_t widths[] = {0, 1, 2, 62, 63, 64, 255, 65535, (size_t)1 << 32, SIZE_MAX};
    wexxolin_vertex *path = (wexxolin_vertex *)before[0];
    begin_group("routes, paths into points");
    for (size_t k = 0; k < scaled(scale, 20000); k++) {
        size_t width = k % 8 == 0 ? widths[below(sizeof widths / sizeof *widths)] : 1 + below(63), count = below(40);
        struct request r = {POINTS, width, {count, count + below(2), count + below(2)}};
        for (size_t i = 0; i < count; i++)
            path[i] = (wexxolin_vertex)(chance(97) ? below(64 * (width % 64 + 1)) : below(65536));
        if (count > 0 && chance(20))
            path[below(count)] = (wexxolin_vertex)(64 * (width % 64 + 1) - below(2));
        if (count > 0 && chance(20))
            r.length[1 + below(2)]--;
        compare(&r);
    }
    end_group();
}

int main(int argc, char **argv)
{
    uint64_t seed = argc > 2 ? strtoull(argv[2], NULL, 0) : 1;
    scale = scale_of(argc > 1 ? argv[1] : "1");
    if (scale.times == 0) {
        fprintf(stderr, "usage: routes [SCALE [SEED]], SCALE at least 1\n");
        return 2;
    }
    dice = dice_of(seed);
    open_rooms();
    group_by_hand();
    group_whole_files();
    group_damaged();
    group_writing();
    group_long_paths();
    group_points();
    return 0;
}
