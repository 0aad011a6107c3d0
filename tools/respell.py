#!/usr/bin/env python3
"""Spells this repository's own definitions and lemmas as today's Rattle does, by the table tools/respell.tsv: a name, a tab, its new spelling.

usage: python3 tools/respell.py [TABLE]     at the top of the repository, once, right after port.py: what is written later may have steps of these names

Words are in snake case; a dash joins two names only. Turned are whole names: in .antt files, in the clauses and `ghost use` lines of .rt files, in the texts of
the wrong edits (must-fail/ and slow-edits/), and in the code spans of README.md and docs/. A name with a dash is left in comments, and behind a dot in what proves
a function, where it is the name of a step. Functions of src/, strings, inputs and outputs have none of these names.
"""
import os
import re
import sys

TABLE = sys.argv[1] if len(sys.argv) > 1 else os.path.join("tools", "respell.tsv")
ROWS = dict(line.rstrip("\n").split("\t") for line in open(TABLE, encoding="utf-8"))
FIELDS = {"in-sixteens", "weights-long", "offsets-long", "ids-long", "forbids-long", "logs-lent", "sums-lent", "sums-few", "noise-long"}
# A lemma that would have a definition's name: the file, the name, what it becomes, and the old spelling of the definition, which shows that the file is not turned yet.
MEETS = {"crates/scan/proofs/ForbidLaws.antt": ("kind_fits", "kind_fits_lem", "kindFits")}
EDGE = r"[\w'\u2080-\u2089-]"
NAMES = "|".join(sorted(map(re.escape, ROWS), key=len, reverse=True))
PLAIN = re.compile(rf"(?<!{EDGE})({NAMES})(?!{EDGE})")
SPAN = re.compile(r"`[^`\n]+`")


def turned(text, dashes, steps=False):
    def one(m):
        name = m[1]
        if "-" in name and (not dashes or (steps and m.start() and text[m.start() - 1] == "." and name not in FIELDS)):
            return name
        return ROWS[name]

    return PLAIN.sub(one, text)


def line_of_code(line, mark, steps=False):
    """A line's code with every name turned, and its comment with names without a dash and code spans."""
    cut = re.search(rf"(?:^|\s){mark}(?:\s|$)", line)
    code, comment = (line, "") if not cut else (line[: cut.start()], line[cut.start() :])
    comment = SPAN.sub(lambda m: turned(m[0], True), comment)
    return turned(code, True, steps) + turned(comment, False)


def edit_line(line):
    return turned(line, line.startswith(("old:", "new:")))


def rewrite(path, turn):
    with open(path, encoding="utf-8") as f:
        old = f.read()
    new = turn(old)
    if new != old:
        with open(path, "w", encoding="utf-8") as f:
            f.write(new)
        return 1
    return 0


def apart(name, new, shown):
    return lambda text: re.sub(rf"(?<!{EDGE}){name}(?!{EDGE})", new, text) if shown in text else text


def lines(turn):
    return lambda text: "\n".join(turn(line) for line in text.split("\n"))


def main():
    changed = 0
    for top in ("crates", "slow-edits"):
        for folder, dirs, files in os.walk(top):
            dirs[:] = sorted(d for d in dirs if d != "out")
            for name in sorted(files):
                path = os.path.join(folder, name)
                if name.endswith(".antt"):
                    steps = name == "Proof.antt"
                    if path in MEETS:
                        changed += rewrite(path, apart(*MEETS[path]))
                    changed += rewrite(path, lines(lambda l: line_of_code(l, "--", steps)))
                elif name.endswith(".rt"):
                    changed += rewrite(path, lines(lambda l: line_of_code(l, "//")))
                elif name.endswith(".edit"):
                    changed += rewrite(path, lines(edit_line))
    pages = ["README.md"] + [os.path.join("docs", f) for f in sorted(os.listdir("docs")) if f.endswith(".md")]
    for path in pages:
        changed += rewrite(path, lambda text: SPAN.sub(lambda m: turned(m[0], True), text))
    print(f"respell: {changed} files changed")


main()
