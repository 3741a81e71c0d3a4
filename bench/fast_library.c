/* The functions of include/wexxolin.h by the fast router: what the harness and the measurements are tried on, and the
   other column of the measurements. Its job reader, its packer, its printer, its route files and its check of them are written apart from the second ones. */
#include "fast.h"

#include <stdio.h>
#include <string.h>

struct wexxolin_sight wexxolin_sight(const uint8_t *cells, size_t cells_len, size_t width, size_t height,
                                     size_t ax, size_t ay, size_t bx, size_t by)
{
    return fast_sight(cells, cells_len, width, height, ax, ay, bx, by);
}

struct wexxolin_route wexxolin_route(const uint8_t *cells, size_t cells_len, size_t width, size_t height,
                                     size_t sx, size_t sy, size_t gx, size_t gy,
                                     uint64_t *g, size_t g_len, wexxolin_vertex *parents, size_t parents_len,
                                     uint8_t *marks, size_t marks_len, wexxolin_vertex *legs, size_t legs_len,
                                     wexxolin_vertex *path, size_t path_len)
{
    return fast_route(cells, cells_len, width, height, sx, sy, gx, gy, g, g_len, parents, parents_len, marks, marks_len, legs,
                      legs_len, path, path_len);
}

static uint64_t far_difference(int64_t dx, int64_t dy)
{
    return dx * dx > 63 * 63 ? 4 : dy * dy > 63 * 63 ? 5 : 0;
}

static uint64_t far_vertex(size_t ax, size_t ay, size_t bx, size_t by)
{
    return (ax | ay) > 63 ? 4 : (bx | by) > 63 ? 5 : 0;
}

static struct wexxolin_length length(uint64_t number, int dx, int dy)
{
    uint64_t units = number ? 0 : fast_units(dx, dy);
    return (struct wexxolin_length){number, 0, 0, units, (double)units * 0x1p-20};
}

static struct wexxolin_direction direction(uint64_t number, int dx, int dy)
{
    if (number == 0 && !(dx | dy))
        number = 9;
    if (number)
        return (struct wexxolin_direction){number, 0, 0, 0, 0};
    double u = (double)fast_units(dx, dy);
    return (struct wexxolin_direction){0, 0, 0, dx * 0x1p20 / u, dy * 0x1p20 / u};
}

struct wexxolin_length wexxolin_length(int32_t dx, int32_t dy) { return length(far_difference(dx, dy), dx, dy); }

struct wexxolin_length wexxolin_length_between(size_t ax, size_t ay, size_t bx, size_t by)
{
    return length(far_vertex(ax, ay, bx, by), (int)(bx - ax), (int)(by - ay));
}

struct wexxolin_direction wexxolin_direction(int32_t dx, int32_t dy) { return direction(far_difference(dx, dy), dx, dy); }

struct wexxolin_direction wexxolin_direction_between(size_t ax, size_t ay, size_t bx, size_t by)
{
    return direction(far_vertex(ax, ay, bx, by), (int)(bx - ax), (int)(by - ay));
}

struct job {
    uint64_t number, place, second;
    unsigned width, height;
    size_t first_net, records;
};

/* Bytes that must be 0, by type. */
static const uint8_t unused[4] = {0xff, 0xf2, 0xc2, 0xc0};

static struct job read_job(const uint8_t *bytes, size_t length)
{
    struct job job = {0, 0, 0, 0, 0, 0, length / 8};
    if (length > 8192 || length % 8)
        return job.number = length > 8192 ? 10 : 11, job;
    if (length == 0)
        return job.number = 12, job;
    unsigned last = 0;
    job.first_net = job.records;
    for (size_t n = 0; n < job.records; n++) {
        const uint8_t *r = bytes + 8 * n;
        job.place = n;
        job.number = 13;
        if (r[0] == 0 || r[0] > 3)
            return job;
        job.number = 23;
        for (unsigned i = 1; i < 8; i++)
            if (r[i] && unused[r[0]] >> i & 1)
                return job.second = i, job;
        job.number = 12;
        if ((n == 0) != (r[0] == 1))
            return job;
        if (r[0] == 1) {
            job.width = r[2];
            job.height = r[3];
            job.number = 14;
            if (job.width - 1 > 62 || job.height - 1 > 62)
                return job;
        } else if (r[0] == 2) {
            job.number = 18;
            if (job.first_net != job.records)
                return job;
            job.number = 15;
            if (r[2] >= r[4] || r[3] >= r[5] || r[4] > job.width || r[5] > job.height)
                return job;
        } else {
            job.number = 17;
            if (r[1] <= last)
                return job;
            last = r[1];
            job.number = 16;
            if (r[2] > job.width || r[4] > job.width || r[3] > job.height || r[5] > job.height)
                return job;
            if (job.first_net == job.records)
                job.first_net = n;
        }
    }
    job.number = job.place = 0;
    return job;
}

struct wexxolin_board wexxolin_board(const uint8_t *bytes, size_t length, uint8_t *board, size_t board_len)
{
    struct job job = read_job(bytes, length);
    size_t count = (size_t)job.width * job.height;
    if (job.number == 0 && board_len < count)
        job.number = 19;
    if (job.number)
        return (struct wexxolin_board){job.number, job.place, job.second, 0, 0, 0};
    memset(board, 0, count);
    for (const uint8_t *r = bytes + 8; r < bytes + 8 * job.first_net; r += 8)
        for (unsigned y = r[3]; y < r[5]; y++)
            memset(board + y * job.width + r[2], 1, (size_t)(r[4] - r[2]));
    return (struct wexxolin_board){0, 0, 0, job.width, job.height, job.records - job.first_net};
}

struct wexxolin_net wexxolin_net(const uint8_t *bytes, size_t length, size_t index)
{
    struct job job = read_job(bytes, length);
    if (job.number == 0 && index >= job.records - job.first_net)
        job.number = 20;
    if (job.number)
        return (struct wexxolin_net){job.number, job.place, job.second, 0, 0, 0, 0, 0};
    const uint8_t *r = bytes + 8 * (job.first_net + index);
    return (struct wexxolin_net){0, 0, 0, r[1], r[2], r[3], r[4], r[5]};
}

/* ---------- packed boards ---------- */

/* One byte of bits, high bit first, and the eight bytes of its cells, as this machine has them in a word. */
static uint64_t spread(uint8_t bits) { return bits * 0x8040201008040201u >> 7 & 0x0101010101010101u; }
static uint8_t gather(uint64_t cells) { return (uint8_t)(cells * 0x8040201008040201u >> 56); }

static struct wexxolin_pack judge_packed(const uint8_t *packed, size_t packed_len, size_t width, size_t height)
{
    if (width - 1 > LARGEST_SIDE - 1 || height - 1 > LARGEST_SIDE - 1)
        return (struct wexxolin_pack){1, 0, 0};
    size_t row = (width + 7) / 8;
    if (packed_len != row * height)
        return (struct wexxolin_pack){29, 0, 0};
    unsigned filling = (1u << (8 * row - width)) - 1;
    for (size_t end = row; end <= packed_len; end += row)
        if (packed[end - 1] & filling)
            return (struct wexxolin_pack){30, end - 1, 0};
    return (struct wexxolin_pack){0, 0, 0};
}

struct wexxolin_pack wexxolin_unpack(const uint8_t *packed, size_t packed_len, size_t width, size_t height,
                                     uint8_t *cells, size_t cells_len)
{
    struct wexxolin_pack answer = judge_packed(packed, packed_len, width, height);
    if (answer.number == 0 && cells_len < width * height)
        answer.number = 19;
    if (answer.number)
        return answer;
    for (size_t y = 0; y < height; y++, cells += width) {
        size_t x = 0;
        for (; x + 8 <= width; x += 8) {
            uint64_t eight_cells = spread(*packed++);
            memcpy(cells + x, &eight_cells, 8);
        }
        for (unsigned bits = x < width ? *packed++ : 0; x < width; x++, bits <<= 1)
            cells[x] = bits >> 7 & 1;
    }
    return answer;
}

struct wexxolin_pack wexxolin_pack(const uint8_t *cells, size_t cells_len, size_t width, size_t height,
                                   uint8_t *packed, size_t packed_len)
{
    if (width - 1 > LARGEST_SIDE - 1 || height - 1 > LARGEST_SIDE - 1)
        return (struct wexxolin_pack){1, 0, 0};
    if (cells_len != width * height)
        return (struct wexxolin_pack){2, 0, 0};
    for (size_t i = 0; i < cells_len; i++)
        if (cells[i] > 1)
            return (struct wexxolin_pack){3, i, 0};
    if (packed_len < (width + 7) / 8 * height)
        return (struct wexxolin_pack){21, 0, 0};
    for (size_t y = 0; y < height; y++, cells += width) {
        size_t x = 0;
        for (; x + 8 <= width; x += 8) {
            uint64_t eight_cells;
            memcpy(&eight_cells, cells + x, 8);
            *packed++ = gather(eight_cells);
        }
        unsigned bits = 0;
        for (size_t left = x; left < width; left++)
            bits |= (unsigned)cells[left] << (7 - left % 8);
        if (x < width)
            *packed++ = (uint8_t)bits;
    }
    return (struct wexxolin_pack){0, 0, 0};
}

struct wexxolin_count_packed wexxolin_count_packed(const uint8_t *packed, size_t packed_len, size_t width, size_t height)
{
    struct wexxolin_pack judged = judge_packed(packed, packed_len, width, height);
    struct wexxolin_count_packed answer = {judged.number, judged.place, judged.second, 0};
    for (size_t i = 0; judged.number == 0 && i < packed_len; i++)
        answer.blocked += (uint64_t)__builtin_popcount(packed[i]);
    return answer;
}

/* ---------- the lines ---------- */

/* Where a line is written; with no bytes it is only measured. */
struct pen {
    uint8_t *bytes;
    size_t length;
};

static void put(struct pen *pen, const char *text)
{
    size_t count = strlen(text);
    if (pen->bytes)
        memcpy(pen->bytes + pen->length, text, count);
    pen->length += count;
}

static void put_number(struct pen *pen, const char *before, uint64_t number)
{
    char digits[21];
    snprintf(digits, sizeof digits, "%llu", (unsigned long long)number);
    put(pen, before);
    put(pen, digits);
}

/* The vertices, until there is no room. */
static void put_path(struct pen *pen, size_t width, const wexxolin_vertex *path, size_t path_len, size_t room)
{
    uint64_t row = width == 0 ? 2 : width < 65536 ? width + 1 : 65536;
    for (size_t i = 0; i < path_len && pen->length <= room; i++) {
        put_number(pen, " ", path[i] % row);
        put_number(pen, ",", path[i] / row);
    }
}

struct wexxolin_line wexxolin_line(uint64_t net, uint64_t number, uint64_t place, uint64_t second, uint64_t units,
                                   uint64_t expansions, uint64_t tests, size_t width, const wexxolin_vertex *path,
                                   size_t path_len, uint8_t *out, size_t out_len)
{
    struct pen pen = {NULL, 0};
    for (int written = 0; written < 2; written++) {
        pen = (struct pen){written ? out : NULL, 0};
        put_number(&pen, number == 0 || number == 8 ? "net " : "refused ", number == 0 || number == 8 ? net : number);
        if (number == 0)
            put_number(&pen, " path ", units);
        if (number == 0 || number == 8) {
            put_number(&pen, number == 8 ? " none expanded " : " expanded ", expansions);
            put_number(&pen, " tests ", tests);
        } else
            put_number(&pen, " at ", place);
        if (number == 23 || number == 26 || number == 27)
            put_number(&pen, " ", second);
        if (number == 0) {
            put(&pen, " at");
            put_path(&pen, width, path, path_len, out_len);
        }
        put(&pen, "\n");
        if (pen.length > out_len)
            return (struct wexxolin_line){21, 0, 0, 0};
    }
    return (struct wexxolin_line){0, 0, 0, pen.length};
}

/* ---------- route files ---------- */

static struct wexxolin_read_routes refused_routes(uint64_t number, uint64_t place, uint64_t second)
{
    return (struct wexxolin_read_routes){number, place, second, 0, 0};
}

/* next is the place of a further point of the last net, SIZE_MAX where there can be none. */
static struct wexxolin_read_routes judge_routes(const uint8_t *file, size_t file_len)
{
    struct wexxolin_read_routes answer = {0, 0, 0, 0, 0};
    size_t next = 0;
    unsigned last = 0;
    if (file_len % 8 != 0)
        return refused_routes(11, 0, 0);
    for (size_t i = 0; i < file_len / 8; i++) {
        const uint8_t *r = file + 8 * i;
        size_t place = r[2] | (size_t)r[3] << 8;
        if (r[0] != 4 && r[0] != 5)
            return refused_routes(13, i, 0);
        for (size_t k = r[0] == 4 ? 6 : 2; k < 8; k++)
            if (r[k] != 0)
                return refused_routes(23, i, k);
        if (r[1] == 0 || r[1] < last || place != (r[1] == last ? next : 0))
            return refused_routes(22, i, 0);
        answer.nets += r[1] != last;
        answer.points += r[0] == 4;
        last = r[1];
        next = r[0] == 4 ? place + 1 : SIZE_MAX;
    }
    return answer;
}

struct wexxolin_read_routes wexxolin_read_routes(const uint8_t *file, size_t file_len, uint8_t *nets, size_t nets_len,
                                                 size_t *counts, size_t counts_len, uint8_t *xs, size_t xs_len,
                                                 uint8_t *ys, size_t ys_len)
{
    struct wexxolin_read_routes answer = judge_routes(file, file_len);
    if (nets_len < answer.nets || counts_len < answer.nets || xs_len < answer.points || ys_len < answer.points)
        return refused_routes(21, 0, 0);
    if (answer.number)
        return answer;
    unsigned last = 0;
    for (const uint8_t *r = file; r != file + file_len; r += 8) {
        if (r[1] != last) {
            *nets++ = (uint8_t)(last = r[1]);
            *counts++ = 0;
        }
        if (r[0] == 4) {
            counts[-1]++;
            *xs++ = r[4];
            *ys++ = r[5];
        }
    }
    return answer;
}

struct wexxolin_write_routes wexxolin_write_routes(const uint8_t *nets, size_t nets_len, const size_t *counts, size_t counts_len,
                                                   const uint8_t *xs, size_t xs_len, const uint8_t *ys, size_t ys_len,
                                                   uint8_t *file, size_t file_len)
{
    size_t records = 0, points = 0;
    unsigned last = 0;
    for (size_t n = 0; n < nets_len; n++) {
        size_t count = n < counts_len ? counts[n] : 0;
        if (nets[n] <= last)
            return (struct wexxolin_write_routes){22, records, 0, 0};
        if (count > 65536)
            return (struct wexxolin_write_routes){22, records + 65536, 0, 0};
        records += count == 0 ? 1 : count;
        points += count;
        last = nets[n];
    }
    if (counts_len < nets_len || file_len < 8 * records || xs_len < points || ys_len < points)
        return (struct wexxolin_write_routes){21, 0, 0, 0};
    for (size_t n = 0; n < nets_len; n++) {
        if (counts[n] == 0) {
            memcpy(file, (uint8_t[8]){5, nets[n]}, 8);
            file += 8;
        }
        for (size_t p = 0; p < counts[n]; p++, file += 8)
            memcpy(file, (uint8_t[8]){4, nets[n], (uint8_t)p, (uint8_t)(p >> 8), *xs++, *ys++}, 8);
    }
    return (struct wexxolin_write_routes){0, 0, 0, records};
}

struct wexxolin_path_points wexxolin_path_points(const wexxolin_vertex *path, size_t path_len, size_t width,
                                                 uint8_t *xs, size_t xs_len, uint8_t *ys, size_t ys_len)
{
    if (width - 1 > LARGEST_SIDE - 1)
        return (struct wexxolin_path_points){1, 0, 0};
    for (size_t i = 0; i < path_len; i++)
        if (path[i] / (width + 1) > LARGEST_SIDE)
            return (struct wexxolin_path_points){4, 0, 0};
    if (xs_len < path_len || ys_len < path_len)
        return (struct wexxolin_path_points){21, 0, 0};
    for (size_t i = 0; i < path_len; i++) {
        xs[i] = (uint8_t)(path[i] % (width + 1));
        ys[i] = (uint8_t)(path[i] / (width + 1));
    }
    return (struct wexxolin_path_points){0, 0, 0};
}

/* ---------- the check of routes ---------- */

/* Where a net's records stand in a file that passed. */
struct part {
    const uint8_t *records;
    size_t count;
};

static int is_pinched(const uint8_t *cells, size_t width, size_t height, size_t x, size_t y)
{
    if (x - 1 >= width - 1 || y - 1 >= height - 1)
        return 0;
    const uint8_t *se = cells + y * width + x, *ne = se - width;
    return se[0] == ne[-1] && ne[0] == se[-1] && se[0] != ne[0];
}

/* 25, 26 and 27; adds up the units of the legs. */
static struct wexxolin_check judge_net(const uint8_t *cells, size_t width, size_t height, struct wexxolin_net net, struct part part,
                                       uint64_t *units)
{
    const uint8_t *first = part.records, *last = first + 8 * (part.count - 1);
    *units = 0;
    if (first[4] != net.sx || first[5] != net.sy || last[4] != net.gx || last[5] != net.gy)
        return (struct wexxolin_check){25, net.net, 0, 0};
    for (const uint8_t *r = first; r <= last; r += 8)
        if (r[4] > width || r[5] > height)
            return (struct wexxolin_check){26, net.net, (uint64_t)(r - first) / 8, 0};
    for (const uint8_t *r = first; r < last; r += 8) {
        const uint8_t *to = r + 8;
        if ((r[4] == to[4] && r[5] == to[5]) || (to < last && is_pinched(cells, width, height, to[4], to[5])) ||
            !fast_sight(cells, width * height, width, height, r[4], r[5], to[4], to[5]).sight)
            return (struct wexxolin_check){27, net.net, (uint64_t)(r - first) / 8, 0};
        *units += fast_units(to[4] - r[4], to[5] - r[5]);
    }
    return (struct wexxolin_check){0, 0, 0, 0};
}

struct wexxolin_check wexxolin_check(const uint8_t *job, size_t job_len, const uint8_t *routes, size_t routes_len,
                                     uint8_t *board, size_t board_len, uint64_t *g, size_t g_len,
                                     wexxolin_vertex *parents, size_t parents_len, uint8_t *marks, size_t marks_len,
                                     wexxolin_vertex *legs, size_t legs_len, uint64_t *units, size_t units_len,
                                     uint32_t *leg_counts, size_t leg_counts_len)
{
    uint8_t cells[LARGEST_SIDE * LARGEST_SIDE];
    struct wexxolin_board read = wexxolin_board(job, job_len, cells, sizeof cells);
    if (read.number)
        return (struct wexxolin_check){read.number, read.place, read.second, 0};
    struct wexxolin_read_routes judged = judge_routes(routes, routes_len);
    if (judged.number)
        return (struct wexxolin_check){judged.number, judged.place, judged.second, 0};
    size_t count = read.width * read.height, vertices = (read.width + 1) * (read.height + 1);
    if (board_len < count)
        return (struct wexxolin_check){19, 0, 0, 0};
    if (g_len < vertices || parents_len < vertices || marks_len < vertices || legs_len < vertices)
        return (struct wexxolin_check){6, 0, 0, 0};
    if (units_len < read.nets || leg_counts_len < read.nets)
        return (struct wexxolin_check){21, 0, 0, 0};
    memcpy(board, cells, count);

    struct part parts[256] = {{NULL, 0}};
    for (size_t i = routes_len / 8; i-- > 0;) {
        struct part *part = &parts[routes[8 * i + 1]];
        *part = (struct part){routes + 8 * i, part->count + 1};
    }
    struct wexxolin_net nets[256] = {{0, 0, 0, 0, 0, 0, 0, 0}};
    for (size_t k = 0; k < read.nets; k++) {
        struct wexxolin_net net = wexxolin_net(job, job_len, k);
        nets[net.net] = net;
    }
    for (size_t n = 1; n < 256; n++)
        if ((nets[n].net != 0) != (parts[n].count != 0))
            return (struct wexxolin_check){24, n, 0, 0};

    uint64_t lengths[256];
    wexxolin_vertex path[1];
    for (size_t n = 1; n < 256; n++) {
        if (parts[n].count == 0)
            continue;
        if (parts[n].records[0] == 4) {
            struct wexxolin_check answer = judge_net(cells, read.width, read.height, nets[n], parts[n], &lengths[n]);
            if (answer.number)
                return answer;
        } else if (fast_route(cells, count, read.width, read.height, nets[n].sx, nets[n].sy, nets[n].gx, nets[n].gy, g, g_len, parents,
                              parents_len, marks, marks_len, legs, legs_len, path, 0)
                       .number != 8) {
            return (struct wexxolin_check){28, n, 0, 0};
        } else {
            lengths[n] = 0;
        }
    }
    for (size_t n = 1, k = 0; n < 256; n++)
        if (parts[n].count != 0) {
            units[k] = lengths[n];
            leg_counts[k++] = (uint32_t)(parts[n].count - 1);
        }
    return (struct wexxolin_check){0, 0, 0, read.nets};
}
