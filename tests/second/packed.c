/* Document 02, item 7: "Packed boards from the camera." */
#include "packed.h"

/* "1: width or height outside 1..63" */
static int second_side_is_refused(size_t width, size_t height)
{
    return width < 1 || width > 63 || height < 1 || height > 63;
}

/* "each row filled up to a whole byte". The width is at most 63 here. */
static size_t second_bytes_in_row(size_t width)
{
    size_t bytes = 0;
    while (bytes * 8 < width) {
        bytes = bytes + 1;
    }
    return bytes;
}

/* "one bit per cell, high bit first": the bit of column x in its byte, the first column of a byte having the high bit. */
static unsigned second_bit_of_column(size_t x)
{
    return 128u >> (x % 8);
}

/* "A refusal carries its number and place and no other value." Number 0 is done. */
static struct wexxolin_pack second_answer(uint64_t number, uint64_t place)
{
    struct wexxolin_pack answer = { number, place, 0 };
    return answer;
}

/*
 * "Refusals: 29 wrong packed length, then 30 a filling bit set, with the byte's index; both after 1, before 19."
 * "each row filled up to a whole byte with zero bits". The lowest such byte is named; number 0 if none of the three holds.
 */
static struct wexxolin_pack second_check_packed(const uint8_t *packed, size_t packed_len, size_t width, size_t height)
{
    if (second_side_is_refused(width, height)) {
        return second_answer(1, 0);
    }
    size_t bytes_in_row = second_bytes_in_row(width);
    if (packed_len != bytes_in_row * height) {
        return second_answer(29, 0);
    }
    for (size_t y = 0; y < height; y++) {
        for (size_t x = width; x < bytes_in_row * 8; x++) {
            size_t index = y * bytes_in_row + x / 8;
            if ((packed[index] & second_bit_of_column(x)) != 0) {
                return second_answer(30, index);
            }
        }
    }
    return second_answer(0, 0);
}

/*
 * "We want a reader into our cells". "Cells come as one byte each, row by row: 0 free, 1 blocked."
 * "19: lent board slice shorter than the cells: board slice unchanged", place 0, after 1, 29 and 30.
 * "a slice keeps what lies beyond the part written".
 */
struct wexxolin_pack second_unpack(const uint8_t *packed, size_t packed_len, size_t width, size_t height,
                                   uint8_t *cells, size_t cells_len)
{
    struct wexxolin_pack checked = second_check_packed(packed, packed_len, width, height);
    if (checked.number != 0) {
        return checked;
    }
    if (cells_len < width * height) {
        return second_answer(19, 0);
    }
    size_t bytes_in_row = second_bytes_in_row(width);
    for (size_t y = 0; y < height; y++) {
        for (size_t x = 0; x < width; x++) {
            if ((packed[y * bytes_in_row + x / 8] & second_bit_of_column(x)) != 0) {
                cells[y * width + x] = 1;
            } else {
                cells[y * width + x] = 0;
            }
        }
    }
    return second_answer(0, 0);
}

/*
 * "a writer back". "The writer gives 1, 2, 3, then 21 for a short packed slice."
 * "2: cell slice length is not width × height"; "3: a cell byte is not 0 or 1", "With 3 the place is the index of the
 * first such cell byte". "each row filled up to a whole byte with zero bits".
 */
struct wexxolin_pack second_pack(const uint8_t *cells, size_t cells_len, size_t width, size_t height,
                                 uint8_t *packed, size_t packed_len)
{
    if (second_side_is_refused(width, height)) {
        return second_answer(1, 0);
    }
    if (cells_len != width * height) {
        return second_answer(2, 0);
    }
    for (size_t index = 0; index < cells_len; index++) {
        if (cells[index] != 0 && cells[index] != 1) {
            return second_answer(3, index);
        }
    }
    size_t bytes_in_row = second_bytes_in_row(width);
    if (packed_len < bytes_in_row * height) {
        return second_answer(21, 0);
    }
    for (size_t index = 0; index < bytes_in_row * height; index++) {
        packed[index] = 0;
    }
    for (size_t y = 0; y < height; y++) {
        for (size_t x = 0; x < width; x++) {
            if (cells[y * width + x] == 1) {
                size_t index = y * bytes_in_row + x / 8;
                packed[index] = (uint8_t)(packed[index] | second_bit_of_column(x));
            }
        }
    }
    return second_answer(0, 0);
}

/*
 * "a count of blocked cells from the packed bytes without unpacking"; "the count equals the number of cell bytes that
 * are 1". It refuses like the reader: 1, 29, 30.
 */
struct wexxolin_count_packed second_count_packed(const uint8_t *packed, size_t packed_len, size_t width, size_t height)
{
    struct wexxolin_pack checked = second_check_packed(packed, packed_len, width, height);
    struct wexxolin_count_packed answer = { checked.number, checked.place, checked.second, 0 };
    if (checked.number != 0) {
        return answer;
    }
    size_t bytes_in_row = second_bytes_in_row(width);
    for (size_t y = 0; y < height; y++) {
        for (size_t x = 0; x < width; x++) {
            if ((packed[y * bytes_in_row + x / 8] & second_bit_of_column(x)) != 0) {
                answer.blocked = answer.blocked + 1;
            }
        }
    }
    return answer;
}
