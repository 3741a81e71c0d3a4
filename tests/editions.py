#!/usr/bin/env python3
"""editions.py [--add]: a call's symbol in the library carries its edition (include/wexxolin.h). tests/editions.table has a line for
each symbol: its struct's fields and its parameters. A header that declares a listed symbol otherwise is an error: its edition must
rise. --add lists the symbols that are new, and changes no line that is there."""
import os
import re
import sys

ROOT = os.path.dirname(os.path.dirname(os.path.abspath(__file__)))
TABLE = os.path.join(ROOT, "tests", "editions.table")


def squeezed(text):
    return re.sub(r"\s+", " ", text).strip()


def declared():
    """What the header says of each symbol; a typedef is replaced by what it stands for."""
    with open(os.path.join(ROOT, "include", "wexxolin.h")) as file:
        header = re.sub(r"/\*.*?\*/", "", file.read(), flags=re.S)
    vertex = re.search(r"typedef (\w+) wexxolin_vertex;", header)[1]
    header = header.replace("wexxolin_vertex", vertex)
    structs = {name: squeezed(fields) for name, fields in re.findall(r"struct (\w+) \{(.*?)\};", header, re.S)}
    calls = re.findall(r"(?m)^(?:struct )?(\w+) (wexxolin_\w+)\(([^()]*)\)\s*(?:WEXXOLIN_EDITION\((\w+)\))?;", header)
    for kind, name, _, symbol in calls:
        if not re.fullmatch(name + r"_[1-9]\d*", symbol) and (name, symbol) != ("wexxolin_version", ""):
            sys.exit("include/wexxolin.h: %s has no edition" % name)
    return {symbol or name: "%s (%s)" % (structs.get(kind, kind), squeezed(parameters)) for kind, name, parameters, symbol in calls}


def listed():
    with open(TABLE) as file:
        return dict(line.rstrip("\n").split(": ", 1) for line in file)


here, known = declared(), listed()
if "--add" in sys.argv[1:]:
    with open(TABLE, "a") as file:
        for symbol in sorted(set(here) - set(known)):
            file.write("%s: %s\n" % (symbol, here[symbol]))
    known = listed()
for symbol, form in here.items():
    if symbol not in known:
        sys.exit("tests/editions.table lacks %s: tests/editions.py --add" % symbol)
    if known[symbol] != form:
        sys.exit("%s has changed, so its edition must rise\nwas: %s\nis:  %s" % (symbol, known[symbol], form))
print("\n".join(sorted(here)))
