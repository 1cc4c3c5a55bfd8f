#!/usr/bin/env python3
"""Gives this repository's own definitions and lemmas the spelling of today's Rattle.

usage: python3 tools/respell.py            at the top, once, after the kit's port.py

respelled.tsv beside this script has a row for each name: old, a tab, new. Words are in snake case. A dash joins two names of
definitions, as in has-with; any other word is added with an underscore. A lemma that would get its definition's name ends in _lem.
Whole names alone turn: everywhere in specs/ and proofs/ (comments too), in src/ (where such names stand in clauses alone), and in the
code spans of docs/ and README.md, but for the notes in docs/landings/, which tell of their day. Names that Rattle makes of the code,
in proofs/F/, are in no row.
"""

import os
import re
import sys

HERE = os.path.dirname(os.path.realpath(__file__))
ROOT = os.path.dirname(HERE)
SPAN = re.compile(r"`[^`\n]*`")


def table():
    with open(os.path.join(HERE, "respelled.tsv"), encoding="utf-8") as f:
        return dict(line.rstrip("\n").split("\t") for line in f if line.strip())


def turner(names):
    any_name = "|".join(re.escape(n) for n in sorted(names, key=len, reverse=True))
    whole = re.compile(rf"(?<![\w'-])(?:{any_name})(?![\w'-])")
    return lambda text: whole.sub(lambda m: names[m[0]], text)


def files(top, endings):
    for folder, dirs, names in os.walk(os.path.join(ROOT, top)):
        dirs[:] = sorted(d for d in dirs if d != "out")
        for name in sorted(names):
            if name.endswith(endings):
                yield os.path.join(folder, name)


def main():
    turn = turner(table())
    changed = 0
    pages = [p for p in files("docs", ".md") if "/landings/" not in p] + [os.path.join(ROOT, "README.md")]
    for path in [*files("crates", (".antt", ".rt")), *pages]:
        with open(path, encoding="utf-8") as f:
            old = f.read()
        if path.endswith(".md"):
            new = SPAN.sub(lambda m: turn(m[0]), old)
        else:
            # the lemma on a desk that is open stands beside the definition of that name
            if path.endswith("board/proofs/Granted.antt") and "isOpen" in old:
                old_names = re.compile(r"(?<![\w'-])is_open(?![\w'-])")
                new = turn(old_names.sub("is_open_lem", old))
            else:
                new = turn(old)
        if new != old:
            with open(path, "w", encoding="utf-8") as f:
                f.write(new)
            changed += 1
    print(f"{changed} files changed")


if __name__ == "__main__":
    sys.exit(main())
