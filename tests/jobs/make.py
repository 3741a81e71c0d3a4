#!/usr/bin/env python3
"""make.py LINES: writes the jobs of this folder and what the route program prints for each.

LINES is the program built from tests/second/lines.c. Where a row below says what must be printed, that was written by hand
from the documents and is checked against LINES. The jobs are in the folder already; this shows how they came about."""
import os, subprocess, sys

here = os.path.dirname(os.path.abspath(__file__))
B43 = "0100040300000000"
jobs = []  # name, comment, rows of hex, what must be printed (None: as the second router says)


def job(name, comment, rows, printed=None):
    jobs.append((name, comment, rows.split() if isinstance(rows, str) else rows, printed))


def refused(name, comment, rows, number, *places):
    job("refused-%d-%s" % (number, name), comment, rows, "refused %d at %s\n" % (number, " ".join(map(str, places))))


def board(w, h):
    return "0100%02x%02x00000000" % (w, h)


def keepout(x0, y0, x1, y1):
    return "0200%02x%02x%02x%02x0000" % (x0, y0, x1, y1)


def net(n, sx, sy, gx, gy):
    return "03%02x%02x%02x%02x%02x0000" % (n, sx, sy, gx, gy)


class Dice:  # the same numbers everywhere
    def __init__(self, seed):
        self.state = seed

    def below(self, n):
        self.state = (self.state * 6364136223846793005 + 1442695040888963407) % 2**64
        return (self.state >> 33) % n


# the document's examples
job("document-example", "the example of document 01", "0100020200000000 0200010002010000 0301000002010000 0302000000000000",
    "net 1 path 2531486 expanded 3 tests 10 at 0,0 1,1 2,1\nnet 2 path 0 expanded 0 tests 0 at 0,0\n")
job("document-none", "3 by 1, cell (1,0) blocked: document 01's line without a path", "0100030100000000 0200010002010000 0307000003000000",
    "net 7 none expanded 4 tests 6\n")
job("empty", "an empty input", "", "refused 12 at 0\n")
job("board-only", "a job of only a board prints nothing", "0100020200000000", "")
job("board-and-keepouts", "no net: nothing printed", [board(9, 9), keepout(0, 0, 9, 9), keepout(3, 3, 4, 4)], "")
job("one-cell-free", "1 by 1 free, corner to corner", "0100010100000000 0301000001010000",
    "net 1 path 1482910 expanded 1 tests 3 at 0,0 1,1\n")
job("one-cell-blocked", "1 by 1 blocked, corner to corner, and start = goal", "0100010100000000 0200000001010000 0301000001010000 0302000000000000",
    "net 1 none expanded 1 tests 0\nnet 2 path 0 expanded 0 tests 0 at 0,0\n")
job("diagonal-gap", "2 by 2, (1,0) and (0,1) blocked: no path passes (1,1), which is pinched; one may begin or end there",
    [board(2, 2), keepout(1, 0, 2, 1), keepout(0, 1, 1, 2), net(1, 0, 0, 2, 2), net(2, 2, 0, 0, 2), net(3, 1, 1, 2, 2), net(4, 0, 0, 1, 1)],
    "net 1 none expanded 3 tests 3\nnet 2 none expanded 1 tests 0\nnet 3 path 1482910 expanded 1 tests 6 at 1,1 2,2\n"
    "net 4 path 1482910 expanded 1 tests 3 at 0,0 1,1\n")
blocked = [(5, 0), (6, 0), (4, 1), (2, 2), (3, 2), (4, 2), (5, 2), (7, 2), (5, 3), (2, 5), (4, 5)]
job("fewer-legs-longer", "9 by 6: a tie taken by fewer legs, not by the vertex number, ends in a longer path (docs/RULES.md)",
    [board(9, 6)] + [keepout(x, y, x + 1, y + 1) for x, y in blocked] + [net(1, 5, 1, 3, 5)])

# 10 and 11: the length
long_rows = [board(24, 24)]
dice = Dice(7)
for i in range(768):
    x, y = dice.below(14), dice.below(12)
    long_rows.append(keepout(x + 5, y + 6, x + 6, y + 7) if i % 3 else keepout(5 + i % 13, 6, 6 + i % 13, 7))
for i in range(255):
    long_rows.append(net(i + 1, dice.below(25), dice.below(25), dice.below(25), dice.below(25)))
job("bytes-8192", "8,192 bytes exactly: a board, 768 keepouts, 255 nets", long_rows)
refused("bytes-8193", "8,193 bytes: longer comes before no multiple of 8", long_rows + ["00"], 10, 0)
refused("bytes-8200", "8,200 bytes", long_rows + ["0000000000000000"], 10, 0)
refused("bytes-8200-keepouts", "8,200 bytes of valid records", long_rows[:1] + [keepout(0, 0, 1, 1)] * 1024, 10, 0)
refused("bytes-16384", "twice as long", long_rows * 2, 10, 0)
refused("bytes-20003", "far longer, no multiple of 8", ["ff" * 8] * 2500 + ["ffffff"], 10, 0)
refused("bytes-1", "1 byte", "01", 11, 0)
refused("bytes-7", "7 bytes", "01000202000000", 11, 0)
refused("bytes-9", "9 bytes", "0100020200000000 03", 11, 0)
refused("bytes-8191", "8,191 bytes", long_rows[:1023] + [long_rows[1023][:14]], 11, 0)
refused("bytes-9-of-nonsense", "the length comes before the records", "ffffffffffffffff ff", 11, 0)

# 12
refused("keepout-first", "record 0 is a keepout", [keepout(0, 0, 1, 1), board(4, 3)], 12, 0)
refused("net-first", "record 0 is a net", [net(1, 0, 0, 1, 1)], 12, 0)
refused("net-first-off", "record 0 is a net off every board: 12 comes before 17 and 16", "0300ffffffff0000", 12, 0)
refused("second-board", "record 1 is a board", [B43, B43], 12, 1)
refused("second-board-side-0", "record 1 is a board with side 0: 12 comes before 14", [B43, "0100000000000000"], 12, 1)
refused("board-after-net", "a board after a net", [B43, net(1, 0, 0, 1, 1), B43], 12, 2)
refused("board-last", "record 1023 is a board", long_rows[:1023] + [B43], 12, 1023)

# 13
refused("type-0", "type 0", "0000040300000000", 13, 0)
refused("type-4", "type 4", [B43, "0400000000000000"], 13, 1)
refused("type-255", "type 255 as record 2", [B43, keepout(0, 0, 1, 1), "ff00000000000000"], 13, 2)
refused("zeros", "8,192 zero bytes", ["00" * 8] * 1024, 13, 0)
refused("type-4-all-bytes", "an unknown type is 13, whatever its other bytes", [B43, "04ffffffffffffff"], 13, 1)
refused("type-0-byte-7", "type 0 with a byte that is not 0: 13 comes before 23", "0000040300000001", 13, 0)

# 23
for at in (1, 4, 5, 6, 7):
    row = bytearray.fromhex(B43)
    row[at] = 1
    refused("board-byte-%d" % at, "unused byte %d of the board is 1" % at, [row.hex()], 23, 0, at)
for at in (1, 6, 7):
    row = bytearray.fromhex(keepout(0, 0, 1, 1))
    row[at] = 128
    refused("keepout-byte-%d" % at, "unused byte %d of a keepout is 128" % at, [B43, row.hex()], 23, 1, at)
for at in (6, 7):
    row = bytearray.fromhex(net(1, 0, 0, 1, 1))
    row[at] = 255
    refused("net-byte-%d" % at, "unused byte %d of a net is 255" % at, [B43, row.hex()], 23, 1, at)
refused("keepout-first-byte-1", "23 comes before 12", "0201000001010000", 23, 0, 1)
refused("second-board-byte-7", "23 comes before 12 for a later board too", [B43, "0100040300000001"], 23, 1, 7)
refused("board-side-0-byte-4", "23 comes before 14", "0100000001000000", 23, 0, 4)
refused("keepout-empty-byte-1", "23 comes before 15", [B43, "0201000000000000"], 23, 1, 1)
refused("keepout-after-net-byte-6", "23 comes before 18", [B43, net(1, 0, 0, 1, 1), "0200000001010100"], 23, 2, 6)
refused("net-zero-byte-6", "23 comes before 17 and 16", [B43, "0300ff0000000100"], 23, 1, 6)
refused("board-all-bytes", "every unused byte of the board is 255: the lowest is named", "01ff0403ffffffff", 23, 0, 1)
refused("keepout-bytes-6-7", "unused bytes 6 and 7 of a keepout: the lower is named", [B43, "0200000001010101"], 23, 1, 6)
refused("net-bytes-6-7", "unused bytes 6 and 7 of a net: the lower is named", [B43, "0301000001010101"], 23, 1, 6)
refused("two-records", "unused bytes in two records: the first record counts, not the lower byte", [B43, "0301000001010001", "0302000001010100"], 23, 1, 7)
refused("before-13", "the first refused record counts: 23 at 1, not 13 at 2", [B43, "0200000001010001", "ff00000000000000"], 23, 1, 7)
refused("last-record", "byte 7 of record 1023", long_rows[:1023] + [long_rows[1023][:14] + "01"], 23, 1023, 7)

# 14
refused("side-0-0", "both sides 0", "0100000000000000", 14, 0)
refused("width-0", "width 0", "0100000100000000", 14, 0)
refused("height-0", "height 0", "0100010000000000", 14, 0)
refused("width-64", "width 64", "0100403f00000000", 14, 0)
refused("height-64", "height 64", "01003f4000000000", 14, 0)
refused("height-255", "height 255", "010001ff00000000", 14, 0)

# 15
refused("no-width", "empty: no column", [B43, keepout(2, 1, 2, 3)], 15, 1)
refused("no-height", "empty: no row", [B43, keepout(2, 1, 3, 1)], 15, 1)
refused("backward", "the last x before the first", [B43, keepout(3, 0, 2, 1)], 15, 1)
refused("beyond-right", "one column beyond", [B43, keepout(0, 0, 5, 3)], 15, 1)
refused("beyond-bottom", "one row beyond", [B43, keepout(0, 0, 4, 4)], 15, 1)
refused("zeros", "all used bytes 0: empty", [B43, keepout(0, 0, 1, 1), keepout(0, 0, 0, 0)], 15, 2)
refused("far", "ends at 255", [B43, keepout(0, 0, 255, 255)], 15, 1)

# 16
refused("start-x", "start one column off", [B43, net(1, 5, 0, 0, 0)], 16, 1)
refused("start-y", "start one row off", [B43, net(1, 0, 4, 0, 0)], 16, 1)
refused("goal-x", "goal one column off", [B43, net(1, 0, 0, 5, 0)], 16, 1)
refused("goal-y", "goal one row off, in the second net", [B43, net(1, 0, 0, 4, 3), net(2, 0, 0, 0, 4)], 16, 2)
refused("before-13", "the first refused record counts: 16 at 1, not 13 at 2", [B43, net(1, 0, 0, 255, 0), "ff00000000000000"], 16, 1)

# 17
refused("zero", "net 0 first", [B43, net(0, 0, 0, 1, 1)], 17, 1)
refused("equal", "two nets 1", [B43, net(1, 0, 0, 1, 1), net(1, 0, 0, 1, 1)], 17, 2)
refused("falling", "net 1 after net 2", [B43, net(2, 0, 0, 1, 1), net(1, 0, 0, 1, 1)], 17, 2)
refused("after-255", "net 0 after net 255", [B43, net(255, 0, 0, 1, 1), net(0, 0, 0, 1, 1)], 17, 2)
refused("before-16", "17 comes before 16", [B43, net(0, 9, 9, 9, 9)], 17, 1)
refused("last-record", "record 1023 repeats the number", long_rows[:1023] + [net(254, 0, 0, 1, 1)], 17, 1023)

# 18
refused("keepout-after-net", "a keepout after a net", [B43, net(1, 0, 0, 1, 1), keepout(0, 0, 1, 1)], 18, 2)
refused("before-15", "18 comes before 15", [B43, net(1, 0, 0, 1, 1), keepout(0, 0, 0, 0)], 18, 2)
refused("nothing-printed-before", "a good net first, and still only the refusal", [B43, net(1, 0, 0, 4, 3), net(2, 0, 0, 1, 1), keepout(0, 0, 1, 1)], 18, 3)

# accepted, at the bounds
job("net-255-only", "one net numbered 255", [B43, net(255, 0, 0, 4, 3)], "net 255 path 5242880 expanded 4 tests 24 at 0,0 4,3\n")
job("net-numbers-apart", "numbers with gaps", [B43, net(1, 0, 0, 1, 0), net(9, 4, 3, 3, 3), net(254, 0, 3, 0, 2), net(255, 2, 2, 2, 2)])
job("keepout-whole-board", "everything blocked: no net leaves its start", [B43, keepout(0, 0, 4, 3), net(1, 0, 0, 4, 3), net(2, 2, 1, 2, 2), net(3, 4, 3, 4, 3)],
    "net 1 none expanded 1 tests 0\nnet 2 none expanded 1 tests 0\nnet 3 path 0 expanded 0 tests 0 at 4,3\n")
job("keepouts-overlap", "overlapping and repeated keepouts", [board(8, 8), keepout(1, 1, 5, 4), keepout(3, 2, 7, 7), keepout(3, 2, 7, 7), keepout(4, 3, 5, 4), net(1, 0, 0, 8, 8), net(2, 0, 8, 8, 0), net(3, 4, 3, 8, 8)])
job("keepout-edges", "keepouts along all four sides", [board(6, 6), keepout(0, 0, 6, 1), keepout(0, 5, 6, 6), keepout(0, 0, 1, 6), keepout(5, 0, 6, 6), net(1, 1, 1, 5, 5), net(2, 0, 0, 6, 6), net(3, 1, 5, 5, 1), net(4, 3, 0, 3, 1)])
job("wall", "a wall from side to side: none", [board(10, 6), keepout(4, 0, 5, 6), net(1, 0, 0, 10, 6), net(2, 4, 3, 5, 3), net(3, 0, 0, 4, 6), net(4, 5, 0, 10, 6)])
job("start-is-goal", "start = goal at a corner, inside, and walled in", [board(5, 5), keepout(1, 1, 3, 3), net(1, 0, 0, 0, 0), net(2, 2, 2, 2, 2), net(3, 5, 5, 5, 5), net(4, 4, 4, 4, 4)],
    "".join("net %d path 0 expanded 0 tests 0 at %s\n" % p for p in ((1, "0,0"), (2, "2,2"), (3, "5,5"), (4, "4,4"))))
job("thin-63-by-1", "63 by 1", [board(63, 1), keepout(20, 0, 21, 1), net(1, 0, 0, 20, 1), net(2, 0, 0, 63, 1), net(3, 63, 0, 21, 1)])
job("thin-1-by-63", "1 by 63", [board(1, 63), net(1, 0, 0, 1, 63), net(2, 1, 63, 0, 0), net(3, 0, 10, 0, 50)])
job("free-63-by-63", "the largest board, free", [board(63, 63), net(1, 0, 0, 63, 63), net(2, 63, 0, 0, 63), net(3, 0, 0, 63, 62), net(4, 5, 60, 58, 1), net(5, 31, 31, 32, 32)])
dice = Dice(3)
job("largest-board", "63 by 63 with 140 keepouts", [board(63, 63)] + [(lambda x, y: keepout(x, y, min(63, x + 1 + dice.below(6)), min(63, y + 1 + dice.below(4))))(dice.below(63), dice.below(63)) for _ in range(140)]
    + [net(i + 1, dice.below(64), dice.below(64), dice.below(64), dice.below(64)) for i in range(8)])
job("nets-255", "255 nets on a 12 by 9 board", [board(12, 9), keepout(2, 1, 4, 7), keepout(6, 3, 11, 4), keepout(7, 5, 8, 9)] + [net(i + 1, dice.below(13), dice.below(10), dice.below(13), dice.below(10)) for i in range(255)])
job("serpentine", "a long way round: lying walls with one gap each", [board(21, 21)] + [keepout(0 if y % 4 == 1 else 1, y, 20 if y % 4 == 1 else 21, y + 1) for y in range(1, 21, 2)] + [net(1, 0, 0, 21, 21), net(2, 21, 21, 0, 0), net(3, 0, 0, 0, 21)])
job("chequered", "blocked cells that touch only at corners", [board(9, 7)] + [keepout(x, y, x + 1, y + 1) for y in range(7) for x in range(9) if (x + y) % 2] + [net(1, 0, 0, 9, 7), net(2, 9, 0, 0, 7), net(3, 4, 3, 0, 0)])
rows = [board(40, 30)]
for y in range(30):
    for x in range(40):
        if dice.below(100) < 35:
            rows.append(keepout(x, y, x + 1, y + 1))
job("scattered", "40 by 30, 35 in 100 blocked", rows + [net(i + 1, dice.below(41), dice.below(31), dice.below(41), dice.below(31)) for i in range(20)])


def main():
    if len(sys.argv) != 2:
        sys.exit(__doc__)
    lines = os.path.abspath(sys.argv[1])
    names = set()
    for name, comment, rows, printed in jobs:
        assert name not in names, name
        names.add(name)
        data = bytes.fromhex("".join(rows))
        out = subprocess.run([lines], input=data, stdout=subprocess.PIPE, check=True).stdout
        if printed is not None and out != printed.encode():
            sys.exit("%s: by hand %r, second router %r" % (name, printed, out))
        with open(os.path.join(here, name + ".hex"), "w") as f:
            f.write("# %s\n" % comment + "".join(row + "\n" for row in rows))
        with open(os.path.join(here, name + ".expected"), "wb") as f:
            f.write(out)
    print("%d jobs, %d of them expected by hand" % (len(jobs), sum(j[3] is not None for j in jobs)))


main()
