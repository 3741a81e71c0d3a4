#!/usr/bin/env python3
"""command.py: tries target/wexxolin: the table tests/command.table, every job of tests/jobs and its route records, random boards drawn
and read back, random boards packed, and every command of README.md but the gate."""
import glob
import os
import random
import re
import subprocess
import sys

ROOT = os.path.dirname(os.path.dirname(os.path.abspath(__file__)))
COMMAND = os.path.join(ROOT, "target", "wexxolin")
SEED = int(sys.argv[1]) if len(sys.argv) > 1 else 1
os.chdir(ROOT)
os.environ["PATH"] = os.path.join(ROOT, "target") + ":" + os.environ["PATH"]
passed = 0


def fail(words, *details):
    print("FAILED " + words)
    for detail in details:
        print(detail)
    sys.exit(1)


def check(words, got, wanted):
    global passed
    if got != wanted:
        fail(words, "wanted %r" % (wanted,), "got    %r" % (got,))
    passed += 1


def shell(line):
    done = subprocess.run(["sh", "-c", line], stdin=subprocess.DEVNULL, stdout=subprocess.PIPE, stderr=subprocess.PIPE)
    return done.stdout, done.stderr, done.returncode


def wexxolin(*words, given=b""):
    done = subprocess.run([COMMAND, *words], input=given, stdout=subprocess.PIPE, stderr=subprocess.PIPE)
    return done.stdout, done.stderr, done.returncode


def table():
    """Blocks: '$ COMMAND LINE', what it prints on standard output, '! ' and what on standard error, '= STATUS'."""
    line, out, err = None, "", ""
    with open("tests/command.table") as file:
        for row in file:
            if row.startswith("$ "):
                line, out, err = row[2:].strip(), "", ""
            elif row.startswith("= ") and line:
                check(line, shell(line), (out.encode(), err.encode(), int(row[2:])))
                line = None
            elif line and row.startswith("! "):
                err += row[2:]
            elif line:
                out += row
    if line:
        fail("the table's last command has no status")


def job_bytes(name):
    with open(name) as file:
        return bytes.fromhex("".join(row.split("#")[0] for row in file))


def route_records(lines):
    """The records of what the route program printed, made here, and what they say."""
    records, says = b"", ""
    for line in lines.decode().splitlines():
        words = line.split()
        net, path = int(words[1]), words[words.index("at") + 1 :] if words[2] == "path" else []
        for place, point in enumerate(path):
            records += bytes((4, net, place % 256, place // 256, *map(int, point.split(",")), 0, 0))
        records += b"" if path else bytes((5, net, 0, 0, 0, 0, 0, 0))
        says += " ".join(["net %d" % net, "at" if path else "none", *path]) + "\n"
    return records, says.encode()


def jobs():
    """The lines of each job from its hex text and from its bytes, its routes as records and read back; accepted jobs to text and back."""
    for name in sorted(glob.glob("tests/jobs/*.hex")):
        with open(name[:-4] + ".expected", "rb") as file:
            expected = file.read()
        job, status = job_bytes(name), 1 if expected.startswith(b"refused") else 0
        out, _, ended = wexxolin("route", name)
        check(name, (out, ended), (expected, status))
        records, says = (expected, b"") if status else route_records(expected)
        out, _, ended = wexxolin("records", name)
        check(name + " as records", (out, ended), (records, status))
        if status == 0:
            check(name + " as records, read", wexxolin("read", given=records), (says, b"", 0))
        program = subprocess.run(["target/wexxolin-route"], input=job, stdout=subprocess.PIPE)
        check(name + " by the route program", program.stdout, expected)
        if job and all(b >= 32 or b in b"\t\n\r" for b in job):
            continue  # such bytes are text by the command's rule
        out, _, ended = wexxolin("route", given=job)
        check(name + " as bytes", (out, ended), (expected, status))
        text, _, ended = wexxolin("text", given=job)
        check(name + " as text", (ended, status and text), (status, status and expected))
        if status == 0:
            back, err, ended = wexxolin("job", given=text)
            if not err.startswith(b"wexxolin: the drawing needs"):
                check(name + " to text and back", wexxolin("text", given=back)[0], text)


def drawing(numbers):
    """A random board with its nets, as text."""
    width, height, share = numbers.randint(1, 63), numbers.randint(1, 63), numbers.choice((0, 0.02, 0.2, 0.5, 0.98, 1))
    rows = [["#" if numbers.random() < share else "." for _ in range(width)] for _ in range(height)]
    for _ in range(numbers.randint(0, 6)):
        x, y, cell = numbers.randint(0, width - 1), numbers.randint(0, height - 1), numbers.choice(".#")
        for row in rows[y : y + numbers.randint(1, 12)]:
            row[x : x + 9] = cell * len(row[x : x + 9])
    text = "".join("".join(row) + "\n" for row in rows)
    for number in sorted(numbers.sample(range(1, 256), numbers.choice((0, 1, 5, 40)))):
        ends = [numbers.randint(0, side) for side in (width, height, width, height)]
        text += "net %d %d,%d %d,%d\n" % (number, *ends)
    return text


def blocked_cells(job):
    """The board of a job, by its records alone."""
    cells = set()
    for at in range(8, len(job), 8):
        if job[at] == 2:
            cells |= {(x, y) for x in range(job[at + 2], job[at + 4]) for y in range(job[at + 3], job[at + 5])}
    return cells


def random_boards():
    numbers = random.Random(SEED)
    for number in range(80):
        text = drawing(numbers)
        rows = [row for row in text.splitlines() if row[0] in ".#"]
        nets = [row for row in text.splitlines() if row[0] == "n"]
        job, err, ended = wexxolin("job", given=text.encode())
        if ended == 2:
            needs = re.match(rb"wexxolin: the drawing needs (\d+) records .* and a job has room for 1024\n$", err)
            check("random board %d has too many records" % number, bool(needs) and int(needs[1]) > 1024, True)
            continue
        check("random board %d" % number, (err, ended), (b"", 0))
        cells = {(x, y) for y, row in enumerate(rows) for x, cell in enumerate(row) if cell == "#"}
        check("random board %d, its cells" % number, (job[2], job[3], blocked_cells(job)), (len(rows[0]), len(rows), cells))
        keepouts = len(job) // 8 - 1 - len(nets)
        runs = sum(len(re.findall("#+", row)) for row in rows)
        check("random board %d, few keepouts" % number, keepouts <= runs, True)
        check("random board %d, text again" % number, wexxolin("text", given=job), (text.encode(), b"", 0))
        hexed = wexxolin("job", "--hex", given=text.encode())[0]
        check("random board %d, in hex" % number, wexxolin("text", given=hexed)[0], text.encode())


def packed_boards():
    """Random boards packed, unpacked and counted, against rows of bits made here."""
    numbers = random.Random(SEED)
    for number in range(40):
        width, height = numbers.randint(1, 63), numbers.randint(1, 63)
        cells = bytes(numbers.randint(0, 1) for _ in range(width * height))
        rows = ["".join(map(str, cells[at : at + width])).ljust((width + 7) // 8 * 8, "0") for at in range(0, len(cells), width)]
        bits = bytes(int(row[at : at + 8], 2) for row in rows for at in range(0, len(row), 8))
        sides = (str(width), str(height))
        check("packed board %d" % number, wexxolin("pack", *sides, given=cells), (bits, b"", 0))
        check("packed board %d, unpacked" % number, wexxolin("unpack", *sides, "-", given=bits), (cells, b"", 0))
        check("packed board %d, counted" % number, wexxolin("count", *sides, given=bits), (b"%d\n" % sum(cells), b"", 0))


def explained():
    """Every number of the header is explained, and no other."""
    with open("include/wexxolin.h") as file:
        numbers = re.search(r"enum wexxolin_number \{(.*?)\}", file.read(), re.S)[1]
    known = {int(number) for number in re.findall(r"= (\d+)", numbers)}
    for number in range(64):
        out, _, ended = wexxolin("explain", str(number))
        check("explain %d" % number, (out.startswith(b"%d: " % number), ended), (number in known, 0 if number in known else 2))


def readme():
    """Every command in README.md's indented blocks but the gate, which runs this test."""
    with open("crates.txt") as file:
        crates = {row.split()[0].rstrip(":") for row in file}
    with open("README.md") as file:
        lines = [row[4:].split("   #")[0].strip() for row in file if row.startswith("    ")]
    lines = [line for line in lines if line and line[0] != "#" and line.split()[0] not in crates]
    os.environ["HOME"] = os.path.join(ROOT, "target", "home")
    if lines.count("make") != 1 or len(lines) < 10:
        fail("README.md has fewer commands than expected")
    for line in lines:
        if line == "make test":
            continue
        _, err, ended = shell(line)
        check("README.md: " + line, (err, ended), (b"", 0))


def needed():
    """What is missing is named with its package."""
    _, err, ended = shell("make -s needs CC=no-such-compiler")
    check("a compiler that is missing", (re.sub(rb" gcc.*| .Error.*", b"", err.split(b"\n")[0]), ended),
          (b"no-such-compiler is missing: it is in Debian's package", 2))


def installed():
    """What make install puts in place works there: the command with its route program, and a C program by the pkg-config file."""
    place = os.path.join(ROOT, "target", "installed")
    check("make install", shell("make -s install PREFIX=%s >/dev/null" % place), (b"", b"", 0))
    lines = wexxolin("route", "examples/watch.hex")
    check("the installed command", shell(place + "/bin/wexxolin route examples/watch.hex"), lines)
    with open(place + "/lib/pkgconfig/wexxolin.pc") as file:
        check("the pkg-config file", "prefix=%s\n" % place in file.read(), True)
    if shell("pkg-config --version")[2] == 0:
        flags = "$(PKG_CONFIG_PATH=%s/lib/pkgconfig pkg-config --cflags --libs wexxolin)" % place
        check("a C program by pkg-config", shell("cc examples/route.c -o target/by-pkg-config %s" % flags), (b"", b"", 0))
        with open("examples/route.expected", "rb") as file:
            check("its output", shell("target/by-pkg-config"), (file.read(), b"", 0))


table()
jobs()
explained()
random_boards()
packed_boards()
needed()
installed()
readme()
print("the command: %d comparisons" % passed)
