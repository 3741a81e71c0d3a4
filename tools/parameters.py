#!/usr/bin/env python3
"""Lists the functions of src/ with many parameters, and the facts that many contracts ask for.

    python3 tools/parameters.py [CHECKOUT]
"""
import collections
import glob
import re
import sys

FUNCTION = re.compile(r"\bfn (\w+)(?:<[^>]*>)?\(([^)]*)\)", re.S)
BODY = re.compile(r"\n\s*\{\n|^\s*\{\n", re.M)
REQUIRES = re.compile(r"requires\s*\w*\s*\{(.*?)\}\s*(?=\n|$)", re.S)


def main(root):
    many = []
    facts = collections.defaultdict(set)
    for name in sorted(glob.glob(root + "/crates/*/src/**/*.rt", recursive=True)):
        text = re.sub(r"//.*", "", open(name).read())
        place = name[len(root) + len("/crates/"):]
        for function in FUNCTION.finditer(text):
            parameters = [p for p in function.group(2).split(",") if p.strip()]
            if len(parameters) >= 5:
                many.append((len(parameters), place, function.group(1)))
            rest = text[function.end():]
            body = BODY.search(rest)
            for clause in REQUIRES.findall(rest[: body.start()] if body else ""):
                # A fact is named by the first word of its clause that is a record of specs/.
                for word in set(re.findall(r"\b[A-Z]\w+", clause)):
                    facts[word].add(place + " " + function.group(1))
    print(len(many), "functions with five parameters or more,", sum(n >= 10 for n, _, _ in many), "with ten or more")
    for count, place, function in sorted(many, reverse=True):
        print(f"{count:4} {place} {function}")
    print("facts that stand in the requires of three functions or more")
    for word, places in sorted(facts.items(), key=lambda item: -len(item[1])):
        if len(places) >= 3:
            print(f"{len(places):4} {word}: {', '.join(sorted(p.split('/')[0] + p[p.index(' '):] for p in places))}")


main(sys.argv[1] if len(sys.argv) > 1 else ".")
