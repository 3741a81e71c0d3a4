/* Compares the check of the bureau's routes behind include/wexxolin.h with the second one, answer by answer and byte by byte.

       check [SCALE [SEED]]

   SCALE 1 is the everyday run. The same SEED gives the same cases. The first difference ends the run with 1 and is described on
   standard error. Each request is made twice: every slice that the library is lent ends at a page that nobody may touch, then it
   begins behind one, and what may only be read cannot be written. A step outside is a difference too. */
#include "boards.h"
#include "rooms.h"
#include "second/check.h"
#include "second/second.h"

#include <stdarg.h>
#include <stdio.h>
#include <stdlib.h>
#include <string.h>

enum {
    MOST_CELLS = 63 * 63,
    MOST_VERTICES = 64 * 64,
    MOST_NETS = 255,
    SPARE = 16, /* how many entries a slice may be longer than needed */
    FILE_ROOM = 1 << 20
};

static struct dice dice;
static struct scale scale = {1, 1};

static size_t below(size_t count) { return dice_below(&dice, count); }
static int chance(size_t percent) { return below(100) < percent; }

/* ---------- counting and telling ---------- */

static const char *group_name;
static uint64_t group_calls, numbers_seen[32];

static void begin_group(const char *name)
{
    group_name = name;
    group_calls = 0;
}

static void end_group(void)
{
    printf("%-34s %10llu calls compared\n", group_name, (unsigned long long)group_calls);
    fflush(stdout);
}

static int telling;

static void tell(const char *format, ...)
{
    if (!telling)
        fprintf(stderr, "DIFFERENCE in group '%s'\n", group_name);
    telling = 1;
    va_list arguments;
    va_start(arguments, format);
    vfprintf(stderr, format, arguments);
    va_end(arguments);
    fputc('\n', stderr);
}

/* ---------- a request ---------- */

static struct job job;

static struct {
    uint8_t bytes[FILE_ROOM];
    size_t length;
} routes;

/* The slices that are lent, their lengths in entries. */
enum slice { BOARD, G, PARENTS, MARKS, LEGS, UNITS, LEG_COUNTS, SLICES };
static const char *const slice_names[SLICES] = {"board", "g", "parents", "marks", "legs", "units", "leg_counts"};
static const size_t sizes[SLICES] = {
    1, sizeof(uint64_t), sizeof(wexxolin_vertex), 1, sizeof(wexxolin_vertex), sizeof(uint64_t), sizeof(uint32_t)};
static const size_t most[SLICES] = {MOST_CELLS, MOST_VERTICES, MOST_VERTICES, MOST_VERTICES, MOST_VERTICES, MOST_NETS, MOST_NETS};
static size_t lengths[SLICES];

static void tell_bytes(const char *name, const uint8_t *bytes, size_t length)
{
    tell("%s, %zu bytes:", name, length);
    for (size_t i = 0; i < length; i += 8) {
        char hex[2 * 8 + 1] = "";
        for (size_t k = i; k < i + 8 && k < length; k++)
            snprintf(hex + 2 * (k - i), 3, "%02x", bytes[k]);
        tell("  %s", hex);
    }
}

static void end_of_telling(void)
{
    tell_bytes("job", job.bytes, job.length);
    tell_bytes("routes", routes.bytes, routes.length);
    for (size_t s = 0; s < SLICES; s++)
        tell("%s: %zu entries lent", slice_names[s], lengths[s]);
    exit(1);
}

/* ---------- lending and comparing ---------- */

static struct room job_room, routes_room, slice_rooms[SLICES];
static uint8_t *before[SLICES], *ours[SLICES];

static void tell_fault(const char *where)
{
    tell("outside what was lent: %s", where);
    end_of_telling();
}

static void open_rooms(void)
{
    room_open(&job_room, "job", JOB_ROOM, READ_ONLY);
    room_open(&routes_room, "routes", FILE_ROOM, READ_ONLY);
    for (size_t s = 0; s < SLICES; s++) {
        size_t bytes = (most[s] + SPARE) * sizes[s];
        room_open(&slice_rooms[s], slice_names[s], bytes, WRITABLE);
        before[s] = malloc(bytes);
        ours[s] = malloc(bytes);
        if (before[s] == NULL || ours[s] == NULL)
            exit(2);
    }
    rooms_watch(tell_fault);
}

static const void *lend_bytes(struct room *room, const uint8_t *bytes, size_t length, enum flush flush)
{
    const void *lent = room_lend(room, length, flush);
    memcpy(room->ours + room->at, bytes, length);
    return lent;
}

static void check(struct wexxolin_check b, enum flush flush)
{
    void *lent[SLICES];
    const void *job_bytes = lend_bytes(&job_room, job.bytes, job.length, flush);
    const void *routes_bytes = lend_bytes(&routes_room, routes.bytes, routes.length, flush);
    for (size_t s = 0; s < SLICES; s++) {
        lent[s] = room_lend(&slice_rooms[s], lengths[s] * sizes[s], flush);
        memcpy(lent[s], before[s], lengths[s] * sizes[s]);
    }
    struct wexxolin_check a = wexxolin_check(job_bytes, job.length, routes_bytes, routes.length, lent[BOARD], lengths[BOARD], lent[G],
                                             lengths[G], lent[PARENTS], lengths[PARENTS], lent[MARKS], lengths[MARKS], lent[LEGS],
                                             lengths[LEGS], lent[UNITS], lengths[UNITS], lent[LEG_COUNTS], lengths[LEG_COUNTS]);
    group_calls++;
    if (memcmp(&a, &b, sizeof a) != 0)
        tell("library %llu at %llu %llu, %llu nets; second check %llu at %llu %llu, %llu nets", (unsigned long long)a.number,
             (unsigned long long)a.place, (unsigned long long)a.second, (unsigned long long)a.nets, (unsigned long long)b.number,
             (unsigned long long)b.place, (unsigned long long)b.second, (unsigned long long)b.nets);
    for (size_t s = 0; s < SLICES; s++)
        if (memcmp(lent[s], ours[s], lengths[s] * sizes[s]) != 0)
            tell("what is left in %s differs", slice_names[s]);
    if (telling)
        end_of_telling();
}

static struct wexxolin_check compare(void)
{
    for (size_t s = 0; s < SLICES; s++) {
        dice_fill(&dice, before[s], lengths[s] * sizes[s]);
        memcpy(ours[s], before[s], lengths[s] * sizes[s]);
    }
    struct wexxolin_check b = second_check(job.bytes, job.length, routes.bytes, routes.length, ours[BOARD], lengths[BOARD],
                                           (uint64_t *)ours[G], lengths[G], (wexxolin_vertex *)ours[PARENTS], lengths[PARENTS],
                                           ours[MARKS], lengths[MARKS], (wexxolin_vertex *)ours[LEGS], lengths[LEGS],
                                           (uint64_t *)ours[UNITS], lengths[UNITS], (uint32_t *)ours[LEG_COUNTS], lengths[LEG_COUNTS]);
    numbers_seen[b.number % 32]++;
    check(b, AT_END);
    check(b, AT_FRONT);
    return b;
}

static void promise(int kept, const char *what)
{
    group_calls++;
    if (kept)
        return;
    tell("not so: %s", what);
    end_of_telling();
}

/* ---------- route files ---------- */

static void add_record(unsigned type, unsigned net, unsigned place, unsigned x, unsigned y)
{
    uint8_t record[8] = {(uint8_t)type, (uint8_t)net, (uint8_t)(place % 256), (uint8_t)(place / 256), (uint8_t)x, (uint8_t)y, 0, 0};
    if (routes.length + 8 > FILE_ROOM)
        exit(2);
    memcpy(routes.bytes + routes.length, record, 8);
    routes.length += 8;
}

static void roomy(void)
{
    for (size_t s = 0; s < SLICES; s++)
        lengths[s] = most[s] + below(SPARE + 1);
}

/* The library's own routes for the job in hand, through its writer of route files. */
static void own_routes(void)
{
    enum { MOST_POINTS = MOST_NETS * MOST_VERTICES };
    static uint8_t cells[MOST_CELLS], marks[MOST_VERTICES], nets[MOST_NETS], xs[MOST_POINTS], ys[MOST_POINTS];
    static uint64_t g[MOST_VERTICES];
    static size_t counts[MOST_NETS];
    static wexxolin_vertex parents[MOST_VERTICES], legs[MOST_VERTICES], path[MOST_VERTICES];
    struct wexxolin_board board = wexxolin_board(job.bytes, job.length, cells, MOST_CELLS);
    size_t points = 0;
    for (size_t k = 0; board.number == 0 && k < board.nets; k++) {
        struct wexxolin_net net = wexxolin_net(job.bytes, job.length, k);
        struct wexxolin_route route = wexxolin_route(cells, board.width * board.height, board.width, board.height, net.sx, net.sy, net.gx,
                                                     net.gy, g, MOST_VERTICES, parents, MOST_VERTICES, marks, MOST_VERTICES, legs,
                                                     MOST_VERTICES, path, MOST_VERTICES);
        nets[k] = (uint8_t)net.net;
        counts[k] = route.vertices;
        wexxolin_path_points(path, route.vertices, board.width, xs + points, MOST_POINTS - points, ys + points, MOST_POINTS - points);
        points += route.vertices;
    }
    struct wexxolin_write_routes written =
        wexxolin_write_routes(nets, board.nets, counts, board.nets, xs, points, ys, points, routes.bytes, FILE_ROOM);
    promise(written.number == 0, "our own routes are written");
    routes.length = 8 * written.records;
}

/* ---------- group: files by hand ---------- */

static void of_hex(const char *hex)
{
    static struct job read;
    read.length = 0;
    job_hex(&read, hex);
    memcpy(routes.bytes, read.bytes, read.length);
    routes.length = read.length;
}

/* Written by hand from item 4's words.
     0  document 01's job: a board of 2 by 2 with (1, 0) blocked, net 1 from (0, 0) to (2, 1), net 2 from (0, 0) to itself
     1  3 by 3 with (0, 0) and (1, 1) blocked, so that (1, 1) is pinched, and net 5 from (0, 3) to (3, 0)
     2  3 by 1 with (1, 0) blocked and net 9 between its ends, which has no path
     3  the board of 1, net 6 from (0, 3) to the pinched vertex, net 7 from there to (3, 0)
     4  the board of 1, net 8 from (0, 2) to (2, 0), straight over the pinched vertex
     5  63 by 63 with (1, 0) blocked and net 7 from (0, 0) to (63, 62): the side of the corner (1, 1) is 1
     6  the same with (0, 1) blocked, the cell on the other side of that corner
     7  a board of 2 by 2 without nets */
static const char *const by_hand_jobs[] = {
    "0100020200000000 0200010002010000 0301000002010000 0302000000000000",
    "0100030300000000 0200000001010000 0200010102020000 0305000303000000",
    "0100030100000000 0200010002010000 0309000003000000",
    "0100030300000000 0200000001010000 0200010102020000 0306000301010000 0307010103000000",
    "0100030300000000 0200000001010000 0200010102020000 0308000202000000",
    "01003f3f00000000 0200010002010000 030700003f3e0000",
    "01003f3f00000000 0200000101020000 030700003f3e0000",
    "0100020200000000",
};

/* What is accepted has the units and the legs of the first net. */
static const struct {
    size_t job;
    uint64_t number, place, second, units, legs;
    const char *routes;
} by_hand[] = {
    {0, 0, 0, 0, 2531486, 2, "0401000000000000 0401010001010000 0401020002010000 0402000000000000"},
    {0, 0, 0, 0, 4014396, 3, "0401000000000000 0401010001010000 0401020001020000 0401030002010000 0402000000000000"},
    {0, 0, 0, 0, 4014396, 3, "0401000000000000 0401010001010000 0401020002020000 0401030002010000 0402000000000000"}, /* the last vertex */
    {0, 24, 1, 0, 0, 0, ""},
    {0, 24, 2, 0, 0, 0, "0401000000000000 0401010001010000 0401020002010000"},
    {0, 24, 1, 0, 0, 0, "0402000000000000 0403000000000000"},
    {0, 24, 3, 0, 0, 0, "0401000000000000 0401010001010000 0401020002010000 0402000000000000 0403000000000000"},
    {0, 22, 1, 0, 0, 0, "0501000000000000 0402010000000000 0503000000000000"}, /* 22 before 24 */
    {0, 25, 1, 0, 0, 0, "0401000001000000 0401010001010000 0401020002010000 0402000000000000"},
    {0, 25, 1, 0, 0, 0, "0401000000000000 0401010001010000 0401020002020000 0402000000000000"},
    {0, 25, 1, 0, 0, 0, "0401000000000000 0402000000000000"},
    {0, 25, 1, 0, 0, 0, "0401000000000000 0401010009090000 0402000000000000"}, /* 25 before 26 */
    {0, 26, 1, 1, 0, 0, "0401000000000000 0401010003000000 0401020002010000 0402000000000000"}, /* (3, 0) has the number of (0, 1) */
    {0, 26, 1, 1, 0, 0, "0401000000000000 0401010000030000 0401020002010000 0402000000000000"},
    {0, 26, 1, 1, 0, 0, "0401000000000000 04010100ff010000 0401020002010000 0402000000000000"},
    {0, 26, 1, 2, 0, 0, "0401000000000000 0401010000000000 0401020003000000 0401030002010000 0402000000000000"}, /* 26 before 27 */
    {0, 27, 1, 0, 0, 0, "0401000000000000 0401010002010000 0402000000000000"}, /* crosses (1, 0) */
    {0, 27, 1, 1, 0, 0, "0401000000000000 0401010001010000 0401020001010000 0401030002010000 0402000000000000"},
    {0, 27, 1, 2, 0, 0, "0401000000000000 0401010001010000 0401020002010000 0401030002010000 0402000000000000"}, /* the last leg */
    {0, 27, 2, 0, 0, 0, "0401000000000000 0401010001010000 0401020002010000 0402000000000000 0402010000000000"},
    {0, 28, 1, 0, 0, 0, "0501000000000000 0402000000000000"},
    {0, 28, 2, 0, 0, 0, "0401000000000000 0401010001010000 0401020002010000 0502000000000000"},
    {0, 25, 1, 0, 0, 0, "0401000001000000 0401010001010000 0401020002010000 0502000000000000"}, /* net by net: no search is made */
    {0, 22, 1, 0, 0, 0, "0402000000000000 0401000000000000"},
    {0, 13, 1, 0, 0, 0, "0401000000000000 0300000000000000"},
    {0, 23, 0, 7, 0, 0, "0401000000000001"},
    {0, 11, 0, 0, 0, 0, "04010000000000"},
    {1, 27, 5, 0, 0, 0, "0405000000030000 0405010003000000"},
    {1, 25, 5, 0, 0, 0, "0405000003000000 0405010003000000"},
    {1, 27, 5, 0, 0, 0, "0405000000030000 0405010001010000 0405020003000000"}, /* a leg that ends in the pinched vertex */
    {1, 0, 0, 0, 4689374, 2, "0405000000030000 0405010002020000 0405020003000000"},
    {1, 28, 5, 0, 0, 0, "0505000000000000"},
    {2, 0, 0, 0, 0, 0, "0509000000000000"},
    {2, 27, 9, 0, 0, 0, "0409000000000000 0409010003000000"},
    {3, 0, 0, 0, 2344687, 1, "0406000000030000 0406010001010000 0407000001010000 0407010003000000"},
    {3, 27, 6, 0, 0, 0, /* through the goal's vertex, which is pinched, by its place */
     "0406000000030000 0406010001010000 0406020000020000 0406030001010000 0407000001010000 0407010003000000"},
    {3, 27, 7, 1, 0, 0, /* back to the start's */
     "0406000000030000 0406010001010000 0407000001010000 0407010002000000 0407020001010000 0407030003000000"},
    {4, 27, 8, 0, 0, 0, "0408000000020000 0408010002000000"}, /* the pinched vertex strictly inside */
    {5, 27, 7, 0, 0, 0, "0407000000000000 040701003f3e0000"}, /* clips the corner by one */
    {6, 0, 0, 0, 92684865, 1, "0407000000000000 040701003f3e0000"},
    {7, 0, 0, 0, 0, 0, ""},
    {7, 24, 1, 0, 0, 0, "0501000000000000"},
};

static void group_by_hand(void)
{
    begin_group("check, files by hand");
    for (size_t k = 0; k < sizeof by_hand / sizeof *by_hand; k++) {
        job.length = 0;
        job_hex(&job, by_hand_jobs[by_hand[k].job]);
        of_hex(by_hand[k].routes);
        roomy();
        struct wexxolin_check b = compare();
        promise(b.number == by_hand[k].number && b.place == by_hand[k].place && b.second == by_hand[k].second,
                "the answer is the one written by hand");
        promise(b.nets == 0 || (*(uint64_t *)ours[UNITS] == by_hand[k].units && *(uint32_t *)ours[LEG_COUNTS] == by_hand[k].legs),
                "units and legs are those written by hand");
    }
    end_group();
}

/* ---------- group: own routes, and rooms ---------- */

static void throw_job(void) { job_random(&dice, &job, 12, chance(5) ? 200 : 6, chance(10) ? 63 : 9); }

/* Rooms exactly long enough, one short, none. */
static void compare_by_rooms(void)
{
    struct wexxolin_board board = wexxolin_board(job.bytes, job.length, before[BOARD], MOST_CELLS);
    size_t vertices = (board.width + 1) * (board.height + 1);
    size_t needed[SLICES] = {board.width * board.height, vertices, vertices, vertices, vertices, board.nets, board.nets};
    for (size_t s = 0; s < SLICES; s++) {
        memcpy(lengths, needed, sizeof lengths);
        compare();
        lengths[s] = needed[s] - (needed[s] > 0);
        compare();
        lengths[s] = 0;
        compare();
    }
}

static void group_own(void)
{
    begin_group("check, our own routes");
    for (size_t turn = 0; turn < scaled(scale, 300); turn++) {
        throw_job();
        own_routes();
        roomy();
        promise(compare().number == 0, "our own routes are right");
        if (chance(20))
            compare_by_rooms();
    }
    end_group();
}

/* ---------- group: damaged files ---------- */

static void damage(void)
{
    static const uint8_t bytes[] = {0, 1, 2, 3, 4, 5, 6, 62, 63, 64, 127, 255};
    size_t records = routes.length / 8, i = below(records), k = below(8);
    switch (below(7)) {
    case 0: routes.bytes[8 * i + k] = bytes[below(sizeof bytes)]; break;
    case 1: routes.bytes[8 * i + 4 + below(2)] += chance(50) ? 1 : 255; break;
    case 2: /* a net left out or cut short */
        routes.length = 8 * i;
        break;
    case 3: /* no path claimed for the net of a record that begins and ends it */
        routes.bytes[8 * i] = 5;
        memset(routes.bytes + 8 * i + 2, 0, 6);
        break;
    case 4: /* a further net */
        add_record(4 + (unsigned)below(2), 255, 0, 0, 0);
        break;
    case 5: /* a vertex twice, with the places behind it */
        if (routes.length + 8 <= FILE_ROOM) {
            memmove(routes.bytes + 8 * i + 8, routes.bytes + 8 * i, routes.length - 8 * i);
            routes.length += 8;
            for (size_t j = i + 1; j < routes.length / 8 && routes.bytes[8 * j + 1] == routes.bytes[8 * i + 1]; j++)
                routes.bytes[8 * j + 2]++;
        }
        break;
    default: /* a vertex left out, with the places behind it */
        memmove(routes.bytes + 8 * i, routes.bytes + 8 * i + 8, routes.length - 8 * i - 8);
        routes.length -= 8;
        for (size_t j = i; j < routes.length / 8 && routes.bytes[8 * j + 2] > 0; j++)
            routes.bytes[8 * j + 2]--;
    }
}

static void group_damaged(void)
{
    begin_group("check, damaged files");
    for (size_t turn = 0; turn < scaled(scale, 4000); turn++) {
        throw_job();
        own_routes();
        for (size_t k = 1 + below(2); k > 0 && routes.length >= 8; k--)
            damage();
        if (chance(5) && routes.length > 0)
            routes.length -= 1 + below(routes.length < 8 ? routes.length : 7);
        if (chance(5))
            job_damage(&dice, &job);
        roomy();
        if (chance(5)) {
            size_t s = below(SLICES);
            lengths[s] = below(lengths[s]);
        }
        compare();
    }
    end_group();
}

/* ---------- group: short paths, and long ones ---------- */

/* A vertex of the job's board, now and then one beyond it. */
static void add_point(unsigned net, unsigned place, size_t width, size_t height)
{
    size_t more = chance(10) ? 2 : 1;
    add_record(4, net, place, (unsigned)below(width + more), (unsigned)below(height + more));
}

/* For each net its start, up to two vertices anywhere, and its goal; small boards with many pinched vertices. */
static void group_short(void)
{
    begin_group("check, short paths");
    for (size_t turn = 0; turn < scaled(scale, 6000); turn++) {
        job_random(&dice, &job, 8, 2, 5);
        struct wexxolin_board board = wexxolin_board(job.bytes, job.length, before[BOARD], MOST_CELLS);
        routes.length = 0;
        for (size_t k = 0; k < board.nets; k++) {
            struct wexxolin_net net = wexxolin_net(job.bytes, job.length, k);
            unsigned number = (unsigned)net.net, place = 0;
            add_record(4, number, place++, (unsigned)net.sx, (unsigned)net.sy);
            for (size_t more = below(3); more > 0; more--)
                add_point(number, place++, board.width, board.height);
            if (place > 1 || net.sx != net.gx || net.sy != net.gy)
                add_record(4, number, place++, (unsigned)net.gx, (unsigned)net.gy);
        }
        roomy();
        compare();
    }
    end_group();
}

/* Paths to and fro of more than 256 points, whose places take two bytes; the fault, if there is one, is far behind. */
static void group_long(void)
{
    begin_group("check, long paths");
    for (size_t turn = 0; turn < scaled(scale, 20); turn++) {
        unsigned legs = 2 * (unsigned)(120 + below(200)), fault = (unsigned)below(2 * legs);
        job.length = 0;
        job_hex(&job, "0100050400000000 0303010103030000");
        routes.length = 0;
        for (unsigned place = 0; place <= legs; place++)
            add_record(4, 3, place, place % 2 == 0 ? 1 : place == fault ? 6 : 2, place % 2 == 0 ? 1 : 4);
        add_record(4, 3, legs + 1, 3, 3);
        roomy();
        struct wexxolin_check b = compare();
        promise(fault < legs && fault % 2 == 1 ? b.number == 26 && b.second == fault : b.number == 0 && *(uint32_t *)ours[LEG_COUNTS] == legs + 1,
                "the fault is named, or all legs are counted");
    }
    end_group();
}

int main(int count, char **words)
{
    scale = scale_of(count > 1 ? words[1] : "1");
    dice = dice_of(count > 2 ? strtoul(words[2], NULL, 10) : 1);
    open_rooms();
    group_by_hand();
    group_own();
    group_damaged();
    group_short();
    group_long();
    static const size_t numbers[] = {0, 6, 11, 13, 19, 21, 22, 23, 24, 25, 26, 27, 28};
    for (size_t k = 0; k < sizeof numbers / sizeof *numbers; k++)
        if (numbers_seen[numbers[k]] == 0) {
            fprintf(stderr, "no request was given %zu\n", numbers[k]);
            return 1;
        }
    return 0;
}
