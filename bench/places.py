#!/usr/bin/env python3
"""places.py IN.ll OUT.ll: gives each instruction of LLVM's text a place that names its function, so that code which the
compiler moved into a caller is still known by the function that it came from. The machine code stays the same."""
import re
import sys

HEAD = """!llvm.dbg.cu = !{!901}
!llvm.module.flags = !{!903, !904}
!900 = !DIFile(filename: "rattle", directory: "/")
!901 = distinct !DICompileUnit(language: DW_LANG_C99, file: !900, isOptimized: true, emissionKind: FullDebug)
!902 = !DISubroutineType(types: !{})
!903 = !{i32 2, !"Debug Info Version", i32 3}
!904 = !{i32 7, !"Dwarf Version", i32 4}"""


def function_of(name, number):
    """The two entries for a function: itself, and the one place in it."""
    return [
        f'!{number} = distinct !DISubprogram(name: "{name}", scope: !900, file: !900, line: 1, type: !902, scopeLine: 1, '
        "spFlags: DISPFlagDefinition | DISPFlagOptimized, unit: !901)",
        f"!{number + 1} = !DILocation(line: 1, scope: !{number})",
    ]


def with_places(lines):
    out, entries, number, inside, table = [], [], 1000, False, False
    for line in lines:
        begin = re.match(r'define .*@("?)([^"(]+)\1\(.*\{$', line)
        if begin:
            entries += function_of(begin.group(2), number)
            line, inside = line[:-1] + f"!dbg !{number} {{", True
            number += 2
        elif line == "}":
            inside = False
        elif inside and line.startswith("  "):
            # a switch has its arms on lines of their own, and its place after the last
            table = line.endswith("[") or (table and line.strip() != "]")
            line += "" if table else f", !dbg !{number - 1}"
        out.append(line)
    return out + HEAD.split("\n") + entries


with open(sys.argv[1], encoding="utf8") as source:
    text = with_places(source.read().split("\n"))
with open(sys.argv[2], "w", encoding="utf8") as result:
    result.write("\n".join(text) + "\n")
