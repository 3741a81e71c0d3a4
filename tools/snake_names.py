#!/usr/bin/env python3
"""Spells the repository's own definitions and lemmas in snake case: rowBytes and row-bytes become row_bytes.

usage: python3 tools/snake_names.py [--list]     at the top of the repository, once, after port.py

What turns: every lower camel case word of the .antt files (none is the library's), and every name with a dash that a file of specs/ or
proofs/ declares, walks (Proof.antt) apart. In a walk a name with a dash turns only where the file imports it from a crate of this
repository or declares it as a helper; what Rattle makes keeps its spelling. In .rt files, edits, pages and scripts the camel case words turn,
those too that port.py turned in .antt files alone, and in edits and a page's code spans the names with a dash.
A dash stays where the new spelling is taken, and that is printed. --list prints the rows and writes nothing.
"""
import collections
import os
import re
import sys

WORD = re.compile(r'[^\s(){}.;,@"«»]+')
CAMEL = re.compile(r"^[a-z][a-z0-9_]*[A-Z]|^[a-z].*[a-z0-9][A-Z]")
USE = re.compile(r"(?m)^\s*(?:pub |ghost )?use ([^\s;{]+)\.\{([^}]*)\}")
DECL = re.compile(r"(?m)^ *(?:(?:pub|abbrev|unfoldable|data|record|module|mutual) )*([^\s(){}.;,@\"«»]+)(?: \{[^{}\n]*\}| \([^()\n]*\))* :(?!\S)")
OURS = re.compile(r"Rattle\.(?!std\b|core\b|io\b|os\b|libc\b)")
PAGES = (".md", ".sh", ".py", ".c", ".h", ".table")
# Where the plain spelling is taken by something else in the same file, or by the definition that a lemma is about.
APART = {
    "cell-at": "cell_at_lem",
    "number-of": "number_of_lem",
    "row-of": "row_of_lem",
    "sight-of": "sight_of_lem",
    "in-float": "in_float_lem",
    "notFirst": "is_not_first",
    "notLast": "is_not_last",
}


def files():
    for top in ("crates", "docs", "tests", "bench", "command", "include", "examples", "README.md"):
        if os.path.isfile(top):
            yield top
        for folder, dirs, names in os.walk(top):
            dirs[:] = sorted(d for d in dirs if d not in ("out", "target"))
            for n in sorted(names):
                yield os.path.join(folder, n)


def read(path):
    with open(path, encoding="utf-8", errors="surrogateescape") as f:
        return f.read()


def is_walk(path):
    return os.path.basename(path) == "Proof.antt"


def snake(name):
    name = re.sub(r"(?<=[a-z0-9'])([A-Z])", lambda m: "_" + m[1].lower(), name)
    return name


def imports(text, ours):
    found = set()
    for m in USE.finditer(text):
        if bool(OURS.match(m[1])) == ours:
            for item in m[2].split(","):
                found.update(w for w in item.strip().split(" as ") if w)
    return found


def main():
    texts = {p: read(p) for p in files()}
    antt = [p for p in texts if p.endswith(".antt")]
    words, kit, declared = collections.Counter(), set(), set()
    for p in antt:
        code = re.sub(r"--[^\n]*", "", texts[p])
        words.update(WORD.findall(code))
        kit |= imports(texts[p], False)
        if not is_walk(p):
            declared.update(DECL.findall(code))
    rows = {}
    for w in words:
        if CAMEL.match(w) and w not in kit and not re.search("_[A-Z]", w):
            rows[w] = snake(w).replace("-", "_") if w in declared else snake(w)
    dashes = {w for w in declared if "-" in w and re.match(r"[A-Za-z]", w) and re.search(r"[a-z]", w) and w not in kit and w not in rows and re.fullmatch(r"[A-Za-z0-9_'-]+", w)}
    for w in dashes:
        rows[w] = w.replace("-", "_")
    for w in dashes:
        if any(o != w and rows[o] == rows[w] and "-" not in o for o in rows):
            rows[w] += "_lem"
    rows.update((w, n) for w, n in APART.items() if w in rows)
    taken = collections.Counter(rows.values())
    for old, new in sorted(rows.items()):
        if taken[new] > 1 or new in declared or new in kit:
            print(f"meets: {old} -> {new}" + (" (two rows)" if taken[new] > 1 else "") + (" (the library's)" if new in kit else ""))
    spelled = {rows.get(w, w) for w in declared}

    def page(w):
        """A word of code, an edit or a page, which port.py does not turn in pages and edits."""
        plain = snake(w).replace("-", "_")
        return rows[w] if w in rows else plain if plain in spelled else w

    if "--list" in sys.argv:
        for old, new in sorted(rows.items()):
            print(f"{old}\t{new}")
        return
    for p, text in texts.items():
        if p.endswith(".antt") and is_walk(p):
            own = imports(text, True)
            helpers = {m[0] for m in re.findall(r"(?m)^(?:abbrev |pub )*([^\s(){}.;,@\"«»]+)((?: \{[^{}\n]*\}| \([^()\n]*\))*) : (?!tie\.)", text) if "-" in m[0]}
            made = set(re.findall(r"(?m)^(?:abbrev |pub )*(\S+) : tie\.(?:Need|Given|Variant|Inv)", text)) | {w for w in re.findall(r"(?m)^pub (\S+)-spec :", text)}
            helpers = {h for h in helpers if not h.endswith("-spec")}

            def turn(m, text=text, own=own, helpers=helpers, made=made):
                w = m[0]
                if w in rows and "-" not in w:
                    return rows[w]
                after_dot = m.start() > 0 and text[m.start() - 1] == "."
                if after_dot or w in made:
                    return w
                if w in rows and w in own:
                    return rows[w]
                if w in helpers and w not in kit and re.fullmatch(r"[A-Za-z0-9_'-]+", w):
                    return snake(w).replace("-", "_")
                return w

            new = WORD.sub(turn, text)
        elif p.endswith(".antt"):
            local_kit = imports(text, False)
            new = WORD.sub(lambda m: rows[m[0]] if m[0] in rows and m[0] not in local_kit else m[0], text)
            new = re.sub(r"`([^`\n]+)`", lambda m: "`" + rows.get(m[1], m[1]) + "`", new)
        elif p.endswith((".rt", ".edit")) or p.endswith(PAGES):
            new = re.sub(r"[A-Za-z_][A-Za-z0-9_']*", lambda m: page(m[0]) if CAMEL.match(m[0]) else m[0], text)
            dashed = r"(?<![A-Za-z0-9_'./-])[A-Za-z][A-Za-z0-9_']*(?:-[A-Za-z0-9_']+)+(?![A-Za-z0-9_'./-])"
            if p.endswith(".edit"):
                new = re.sub(dashed, lambda m: page(m[0]), new)
            elif p.endswith((".rt", ".md")):
                new = re.sub(r"`[^`\n]+`", lambda s: re.sub(dashed, lambda m: page(m[0]), s[0]), new)
        else:
            continue
        if new != text:
            with open(p, "w", encoding="utf-8", errors="surrogateescape") as f:
                f.write(new)


if __name__ == "__main__":
    main()
