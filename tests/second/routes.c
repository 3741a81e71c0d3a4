/* Document 02, item 1: "Write the routes back as records." */
#include "routes.h"

/* What has been seen of a route file so far: of each net its last record, and the net number of the record before. */
struct second_seen {
    uint8_t has_record[256], last_type[256];
    size_t last_place[256];
    unsigned net_before;
};

/*
 * "22 exactly if the net number is 0 or below the one before, a net's first place isn't 0, a later place isn't one more than
 * the last, or the net has an earlier record and either is type 5".
 */
static int second_is_out_of_order(const struct second_seen *seen, unsigned type, unsigned net, size_t place)
{
    if (net == 0 || net < seen->net_before) {
        return 1;
    }
    if (seen->has_record[net]) {
        if (type == 5 || seen->last_type[net] == 5) {
            return 1;
        }
        return place != seen->last_place[net] + 1;
    }
    return type == 4 && place != 0;
}

static void second_see(struct second_seen *seen, unsigned type, unsigned net, size_t place)
{
    seen->has_record[net] = 1;
    seen->last_type[net] = (uint8_t)type;
    seen->last_place[net] = place;
    seen->net_before = net;
}

/* "two bytes for the place in the path counted from 0 (low byte first)" */
static size_t second_place(const uint8_t *record)
{
    return record[2] + (size_t)256 * record[3];
}

/* "type 4 with net number, two bytes for the place, x, y, and two zero bytes; type 5 with net number and six zeros": the lowest byte
   that must be 0 and is not, or 8. */
static size_t second_unused_byte(const uint8_t *record)
{
    size_t first = record[0] == 4 ? 6 : 2;
    for (size_t k = first; k < 8; k++) {
        if (record[k] != 0) {
            return k;
        }
    }
    return 8;
}

static struct wexxolin_read_routes second_read_refused(uint64_t number, uint64_t place, uint64_t second)
{
    struct wexxolin_read_routes answer = { number, place, second, 0, 0 };
    return answer;
}

/* "Refusals: 11, then in each record 13 before 22"; "23, an unused byte, comes directly after 13 with record and byte number". */
static struct wexxolin_read_routes second_check_routes(const uint8_t *file, size_t file_len)
{
    struct second_seen seen = { { 0 }, { 0 }, { 0 }, 0 };
    struct wexxolin_read_routes sizes = { 0, 0, 0, 0, 0 };
    if (file_len % 8 != 0) {
        return second_read_refused(11, 0, 0);
    }
    for (size_t i = 0; i < file_len / 8; i++) {
        const uint8_t *record = file + 8 * i;
        unsigned type = record[0], net = record[1];
        if (type != 4 && type != 5) {
            return second_read_refused(13, i, 0);
        }
        if (second_unused_byte(record) < 8) {
            return second_read_refused(23, i, second_unused_byte(record));
        }
        if (second_is_out_of_order(&seen, type, net, second_place(record))) {
            return second_read_refused(22, i, 0);
        }
        sizes.nets += !seen.has_record[net];
        sizes.points += type == 4;
        second_see(&seen, type, net, second_place(record));
    }
    return sizes;
}

/* "The reader keeps x and y as they stand and needs no board." "last 21, output slice too short." */
struct wexxolin_read_routes second_read_routes(const uint8_t *file, size_t file_len, uint8_t *nets, size_t nets_len,
                                               size_t *counts, size_t counts_len, uint8_t *xs, size_t xs_len,
                                               uint8_t *ys, size_t ys_len)
{
    struct wexxolin_read_routes sizes = second_check_routes(file, file_len);
    if (sizes.number != 0) {
        return sizes;
    }
    if (nets_len < sizes.nets || counts_len < sizes.nets || xs_len < sizes.points || ys_len < sizes.points) {
        return second_read_refused(21, 0, 0);
    }
    size_t net = 0, point = 0;
    for (size_t number = 1; number <= 255; number++) {
        size_t records = 0, points = 0;
        for (size_t i = 0; i < file_len / 8; i++) {
            const uint8_t *record = file + 8 * i;
            if (record[1] != number) {
                continue;
            }
            records++;
            if (record[0] == 4) {
                xs[point] = record[4];
                ys[point] = record[5];
                point++;
                points++;
            }
        }
        if (records > 0) {
            nets[net] = (uint8_t)number;
            counts[net] = points;
            net++;
        }
    }
    return sizes;
}

static struct wexxolin_write_routes second_written(uint64_t number, uint64_t place, uint64_t records)
{
    struct wexxolin_write_routes answer = { number, place, 0, records };
    return answer;
}

/* A place as two bytes hold it. */
static size_t second_held(size_t place)
{
    return place % 65536;
}

/* "with the record number (the writer judges what it would write); last 21". A count of 0 is a net with no path. */
struct wexxolin_write_routes second_write_routes(const uint8_t *nets, size_t nets_len, const size_t *counts, size_t counts_len,
                                                 const uint8_t *xs, size_t xs_len, const uint8_t *ys, size_t ys_len,
                                                 uint8_t *file, size_t file_len)
{
    struct second_seen seen = { { 0 }, { 0 }, { 0 }, 0 };
    size_t records = 0, points = 0;
    for (size_t k = 0; k < nets_len; k++) {
        size_t count = k < counts_len ? counts[k] : 0;
        unsigned type = count == 0 ? 5 : 4;
        for (size_t p = 0; p == 0 || p < count; p++) {
            if (second_is_out_of_order(&seen, type, nets[k], second_held(p))) {
                return second_written(22, records, 0);
            }
            second_see(&seen, type, nets[k], second_held(p));
            records++;
        }
        points += count;
    }
    if (counts_len < nets_len || xs_len < points || ys_len < points || file_len < 8 * records) {
        return second_written(21, 0, 0);
    }
    size_t at = 0, from = 0;
    for (size_t k = 0; k < nets_len; k++) {
        for (size_t p = 0; p == 0 || p < counts[k]; p++) {
            int point = counts[k] > 0;
            uint8_t bytes[8] = { point ? 4 : 5, nets[k], 0, 0, 0, 0, 0, 0 };
            if (point) {
                bytes[2] = (uint8_t)(p & 255);
                bytes[3] = (uint8_t)(p >> 8);
                bytes[4] = xs[from];
                bytes[5] = ys[from];
                from++;
            }
            for (size_t b = 0; b < 8; b++) {
                file[8 * at + b] = bytes[b];
            }
            at++;
        }
    }
    return second_written(0, 0, records);
}

/* "Vertex number = y × (width + 1) + x": the x and y that give each number. 1 for the width, 4 for a y above 63, then 21. */
struct wexxolin_path_points second_path_points(const wexxolin_vertex *path, size_t path_len, size_t width,
                                               uint8_t *xs, size_t xs_len, uint8_t *ys, size_t ys_len)
{
    struct wexxolin_path_points answer = { 0, 0, 0 };
    if (width < 1 || width > 63) {
        answer.number = 1;
        return answer;
    }
    for (size_t k = 0; k < path_len; k++) {
        if (path[k] >= 64 * (width + 1)) {
            answer.number = 4;
            return answer;
        }
    }
    if (xs_len < path_len || ys_len < path_len) {
        answer.number = 21;
        return answer;
    }
    for (size_t k = 0; k < path_len; k++) {
        size_t y = 0;
        while ((y + 1) * (width + 1) <= path[k]) {
            y++;
        }
        xs[k] = (uint8_t)(path[k] - y * (width + 1));
        ys[k] = (uint8_t)y;
    }
    return answer;
}
