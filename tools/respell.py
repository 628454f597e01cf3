#!/usr/bin/env python3
"""Spells this repository's own definitions and lemmas in snake case, as today's Rattle has them.

usage: tools/respell.py            at the top, once, after port.py: turns the files by tools/respelled.tsv
       tools/respell.py --table    prints that table anew, from what specs/ and proofs/ declare after port.py

A row is an old name, a tab, and the new one. Whole words turn, in .antt and .rt files and in code spans of pages; in pages
those turn too that port.py turned in the crates. Must-fail edits and the pages PORT*.md stay as they are.
A lemma that would have its definition's name gets _lem, and BY_HAND has a name that would meet a local one. A row whose old
name has no dash and no capital turns in .antt files alone, and not behind a dot, where it names a function's folder or a field.
--table prints a line '# look: ..' for a name that meets another one and that it has no rule for.
"""

import glob
import os
import re
import sys

HERE = os.path.dirname(os.path.realpath(__file__))
TOP = os.path.dirname(HERE)
TABLE = os.path.join(HERE, "respelled.tsv")
WORD = re.compile(r"[^\s(){}.;,@\"«»]+")
DECLARED = re.compile(r"^\s*(?:\w+\s+)*?(" + WORD.pattern + r")((?:\s*[({][^:]*:.*?[)}])*)\s*:\s")
SPAN = re.compile(r"`[^`\n]+`")
# Names that would meet a local name of the same spelling.
BY_HAND = {"asRead": "reread"}


def files(*endings):
    for folder, dirs, names in os.walk(os.path.join(TOP, "crates")):
        dirs[:] = sorted(d for d in dirs if d != "out")
        for name in sorted(names):
            if name.endswith(endings):
                yield os.path.join(folder, name)


def read(path):
    with open(path, encoding="utf-8") as f:
        return f.read()


def code(text):
    return re.sub(r"(?m)(?:^|\s)--(?:\s.*)?$", "", text)


def snake(name):
    if name in BY_HAND:
        return BY_HAND[name]
    return re.sub(r"(?<=[a-z0-9])[A-Z]", lambda m: "_" + m[0].lower(), name).replace("-", "_")


def is_plain(name):
    return "-" not in name and not re.search(r"[a-z][A-Z]", name)


def table():
    words = {p: {w for w in re.findall(r"(?<![^\s(){};,@\"«»])" + WORD.pattern, code(read(p)))} for p in files(".antt")}
    names = set()
    for path in files(".antt"):
        for line in code(read(path)).split("\n"):
            m = DECLARED.match(line)
            if m:
                names.add(m[1])
    turned = {n: snake(n) for n in names if snake(n) != n and not n[0].isupper()}
    rows = {}
    for old, new in sorted(turned.items()):
        others = [o for o, n in turned.items() if n == new and o != old]
        if others and "-" in old:
            new += "_lem"
        elif not others and any(old in w and new in w for w in words.values()):
            if new in names and "-" in old:
                new += "_lem"
            elif new in names:
                rows[new] = new + "_lem"
            else:
                print(f"# look: {old} meets {new}")
        rows[old] = new
    for old, new in sorted(rows.items()):
        print(f"{old}\t{new}")


def turn():
    rows = dict(line.rstrip("\n").split("\t") for line in open(TABLE, encoding="utf-8"))
    pages = [p for p in glob.glob(os.path.join(TOP, "*.md")) + glob.glob(os.path.join(TOP, "docs", "*.md")) if not os.path.basename(p).startswith("PORT")]
    camel = next(o for o in rows if not is_plain(o) and "-" not in o)
    if not any(camel in WORD.findall(read(p)) for p in files(".antt")):
        sys.exit("these files are turned already")

    known = {w for p in files(".antt") for w in WORD.findall(read(p))}

    def words(text):
        def one(m):
            if path.endswith(".md") and m[0] not in rows and m[0] not in known and m[0][0].islower() and snake(m[0]) in known:
                return snake(m[0])
            if is_plain(m[0]) and (not path.endswith(".antt") or text[m.start() - 1 : m.start()] == "."):
                return m[0]
            return rows.get(m[0], m[0])

        return WORD.sub(one, text)

    for path in [*files(".antt", ".rt"), *pages]:
        old = read(path)
        if path.endswith(".md"):
            new = SPAN.sub(lambda m: "`" + words(m[0][1:-1]) + "`", old)
        else:
            new = words(old)
        if new != old:
            with open(path, "w", encoding="utf-8") as f:
                f.write(new)


if sys.argv[1:] == ["--table"]:
    table()
elif not sys.argv[1:]:
    turn()
else:
    sys.exit(__doc__)
