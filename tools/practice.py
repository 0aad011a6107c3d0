#!/usr/bin/env python3
"""Writes the practice ocean: its sheet as a constant of crates/practice/src/bytes.rt and as a list of specs/Bytes.antt.

The ocean is 28 by 12 cells, and its east edge meets its west edge. Its patterns are wind regimes in the order in which a boat
that sails from pole to pole meets them. A regime may stand beside itself and beside the next one, along a parallel as along a
meridian; `OVER` and `ALONG` name the pairs that may stand so besides. Gales may lie in the forties, and squalls in the trades
and the doldrums. The poles are held to ice, and the row north of the line to doldrums.

No choice can contradict: where two pairs of regimes may stand beside each other, so may the two that stand further north in
each pair. So once propagation leaves something, its northernmost regimes are an ocean.

Usage: tools/practice.py            writes the two files
       tools/practice.py SHEET      writes the sheet to a file
"""
import os
import sys

WIDTH, HEIGHT, MODE = 28, 12, 1
PATTERNS = [  # name, weight
    ("arctic pack ice", 40),
    ("polar easterlies", 90),
    ("northern westerlies", 120),
    ("northern horse latitudes", 60),
    ("north-east trades", 130),
    ("squalls", 40),
    ("doldrums", 100),
    ("south-east trades", 130),
    ("southern horse latitudes", 60),
    ("roaring forties", 120),
    ("gales", 60),
    ("antarctic pack ice", 40),
]
COUNT = len(PATTERNS)
ICE, TRADES, SQUALLS, DOLDRUMS, FORTIES, GALES, SOUTH_ICE = 0, 4, 5, 6, 9, 10, 11
# (north, south): what may stand over what besides the same and the next
OVER = {(0, 2), (2, 4), (4, 6), (7, 9), (9, 11), (SQUALLS, TRADES), (DOLDRUMS, SQUALLS), (GALES, FORTIES)}
# what may stand beside what along a parallel besides the same and the next
ALONG = {(TRADES, DOLDRUMS), (FORTIES, SOUTH_ICE)}


def over(p, q):
    return q - p in (0, 1) or (p, q) in OVER


def along(p, q):
    return abs(p - q) <= 1 or (min(p, q), max(p, q)) in ALONG


def lists():
    """The 4P lists in order: directions 0 North, 1 East, 2 South, 3 West."""
    tests = (lambda p, q: over(q, p), along, over, along)
    return [[q for q in range(COUNT) if test(p, q)] for p in range(COUNT) for test in tests]


def forbids():
    held = [(x, ICE) for x in range(WIDTH)]
    held += [(5 * WIDTH + x, DOLDRUMS) for x in range(WIDTH)]
    held += [((HEIGHT - 1) * WIDTH + x, SOUTH_ICE) for x in range(WIDTH)]
    return [(cell, pattern, 1) for cell, pattern in held]


def u16(n):
    return list(n.to_bytes(2, "little"))


def record(kind, rows):
    """The rows of a record, each a comment and its bytes."""
    length = 2 + sum(len(b) for _, b in rows)
    return [(f"kind {kind}", list(length.to_bytes(4, "little")) + u16(kind))] + rows


def sheet():
    rows = record(1, [("patterns", u16(COUNT))] + [(f"weight of {name}", u16(w)) for name, w in PATTERNS])
    all_lists = lists()
    sides = ("north", "east", "south", "west")
    rows += record(2, [(f"{sides[d]} of {name}", [len(all_lists[4 * p + d])] + all_lists[4 * p + d])
                       for p, (name, _) in enumerate(PATTERNS) for d in range(4)])
    rows += record(3, [("width, height, mode", u16(WIDTH) + u16(HEIGHT) + u16(MODE))])
    rows += record(4, [(f"cell {c} keeps {PATTERNS[p][0]}", u16(c) + u16(p) + u16(k)) for c, p, k in forbids()])
    return rows


def sheet_bytes():
    return bytes(b for _, bs in sheet() for b in bs)


def main():
    rows = sheet()
    data = sheet_bytes()
    assert all(lists()) and COUNT * WIDTH * HEIGHT <= 4096 and sum(w for _, w in PATTERNS) <= 1024
    if len(sys.argv) > 1:
        with open(sys.argv[1], "wb") as f:
            f.write(data)
        return
    here = os.path.join(os.path.dirname(os.path.abspath(__file__)), "..", "crates", "practice")
    with open(os.path.join(here, "src", "bytes.rt"), "w") as f:
        f.write("// The practice ocean's sheet. Written by tools/practice.py.\n\n")
        f.write(f"pub(crate) const SHEET: [u8; {len(data)}] = [\n")
        for byte in data:
            f.write(f"    {byte},\n")
        f.write("];\n")
    with open(os.path.join(here, "specs", "Bytes.antt"), "w") as f:
        f.write("-- The practice ocean's sheet, record by record. Written by tools/practice.py. Follows docs/RULES.md, \"Sheet\".\n")
        f.write("-- Assumes nothing.\nuse mathlib.Core.List.{List, [], _∷_}\nuse Prim.Native.Nat.{ℕ}\n\n")
        f.write("unfoldable pub bytes : List ℕ\nbytes =\n")
        for comment, bs in rows:
            f.write("    " + " ∷ ".join(map(str, bs)) + f" ∷  -- {comment}\n")
        f.write("    []\n")


if __name__ == "__main__":
    main()
