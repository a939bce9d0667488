#!/usr/bin/env python3
# Respells this repository's definitions and lemmas as today's Rattle spells words: in snake case, types in camel case.
# usage: tools/respell.py, once, right after the kit's port.py; the names are those of tools/respelled.tsv, old and new.
"""A definition `fuseCount` becomes `fuse_count`, a lemma `at-fuse` becomes `at_fuse`; a lemma that would then have the name
of a definition gets `_lem`. Functions of src/, exported names, strings, inputs and outputs are left. With --falls it only
says where a new name meets a word that the file has already."""

import os
import re
import sys

TOP = os.path.join(os.path.dirname(os.path.realpath(__file__)), "..")
TOKEN = re.compile(r"[A-Za-z_◌][\w'′◌₀-₉-]*[\w'′◌₀-₉]|[A-Za-z_◌]")
PLAIN = re.compile(r"[a-z0-9_']+")


def table():
    with open(os.path.join(TOP, "tools", "respelled.tsv"), encoding="utf-8") as f:
        return dict(line.rstrip("\n").split("\t") for line in f if line.strip())


def split(text, mark):
    """The text as (code, comment) pairs, a line each."""
    for line in text.splitlines(keepends=True):
        at = line.find(mark) if mark == "//" else (0 if line.lstrip().startswith("--") else line.find(" -- "))
        yield (line, "") if at < 0 else (line[:at], line[at:])


def code(text, names, dotted):
    """`dotted`: whether a word that was in snake case before is renamed behind a dot too."""

    def one(m):
        word = m[0]
        if word not in names:
            return word
        if PLAIN.fullmatch(word) and not dotted and m.start() and text[m.start() - 1] == ".":
            return word
        return names[word]

    return TOKEN.sub(one, text)


def comment(text, names):
    """In comments and pages only what stands in backticks, and the first word of a list of laws."""
    text = re.sub(r"`([^`\n]+)`", lambda m: "`" + TOKEN.sub(lambda w: names.get(w[0], w[0]), m[1]) + "`", text)

    def listed(m):
        return m[1] + re.sub(r"[^\s,]+", lambda w: names.get(w[0], w[0]), m[2]) + m[3]

    return re.sub(r"^(\s*--   )(\S+(?:, \S+)*)(  +\S)", listed, text)


def antt(text, names):
    return "".join(code(c, names, False) + comment(k, names) for c, k in split(text, "--"))


def rt(text, names):
    """Only the words of ghost items and clauses, which no word of the program's own looks like: those in mixed case."""
    mixed = {a: b for a, b in names.items() if re.search(r"[a-z0-9][A-Z]", a) and not a[0].isupper()}
    out = []
    ghost = False
    for c, k in split(text, "//"):
        if c.startswith("ghost use"):
            out.append(code(c, {a: b for a, b in names.items() if not PLAIN.fullmatch(a)}, False) + comment(k, mixed))
        else:
            out.append(code(c, mixed, False) + comment(k, names))
    return "".join(out)


def page(text, names):
    return comment(text, {a: b for a, b in names.items() if not PLAIN.fullmatch(a)})


def edit(text, names):
    where = re.search(r"(?m)^file: (\S+)", text)
    turn = antt if where and where[1].endswith(".antt") else rt
    out = []
    for line in text.splitlines(keepends=True):
        m = re.match(r"(old|new): ", line)
        out.append(line[: m.end()] + turn(line[m.end() :], names) if m else line)
    return "".join(out)


def files():
    for folder, dirs, names in os.walk(os.path.join(TOP, "crates")):
        dirs[:] = sorted(d for d in dirs if d not in ("out", "data"))
        for n in sorted(names):
            if n.endswith((".antt", ".rt", ".edit")):
                yield os.path.join(folder, n)
    for folder in ("docs", "docs/landings"):
        for n in sorted(os.listdir(os.path.join(TOP, folder))):
            if n.endswith(".md"):
                yield os.path.join(TOP, folder, n)
    yield os.path.join(TOP, "README.md")


def main():
    names = table()
    news = {}
    for a, b in names.items():
        news.setdefault(b, set()).add(a)
    for p in files():
        with open(p, encoding="utf-8") as f:
            old = f.read()
        turn = {".antt": antt, ".rt": rt, ".edit": edit, ".md": page}[os.path.splitext(p)[1]]
        new = turn(old, names)
        if "--falls" in sys.argv:
            if p.endswith((".antt", ".rt")):
                had = {m[0] for c, _ in split(old, "--" if p.endswith("antt") else "//") for m in TOKEN.finditer(c)
                       if not (m.start() and c[m.start() - 1] == ".")}
                for b, olds in news.items():
                    seen = [a for a in olds if a in had] + ([b] if b in had and b not in names else [])
                    if len(seen) > 1:
                        print(os.path.relpath(p, TOP), b, seen)
            continue
        if new != old:
            with open(p, "w", encoding="utf-8") as f:
                f.write(new)
    return 0


if __name__ == "__main__":
    raise SystemExit(main())
