#!/usr/bin/env python3
"""Writes what the program rehearsal is run on: the files of crates/rehearsal/data and the words of its commands, crates/rehearsal/args.

Run from the repository's root. The sheet of the practice ocean is that of tools/practice.py.
What it must write, crates/rehearsal/stdout, was recorded from the program and read."""
from os import makedirs
from struct import pack
import sys

sys.dont_write_bytecode = True
from practice import sheet_bytes

DATA = "crates/rehearsal/data"


def record(kind, payload):
    return pack("<IH", 2 + len(payload), kind) + payload


def sheet(weights, lists, width, height, mode, forbids=()):
    """The four records of a sheet; docs/RULES.md, "Sheet"."""
    numbers = [n for forbid in forbids for n in forbid]
    return (record(1, pack(f"<{1 + len(weights)}H", len(weights), *weights))
            + record(2, b"".join(bytes([len(l), *l]) for l in lists))
            + record(3, pack("<3H", width, height, mode))
            + record(4, pack(f"<{len(numbers)}H", *numbers)))


def free(weights, width, height, mode, forbids=()):
    """Every pattern may stand beside every one."""
    count = len(weights)
    return sheet(weights, [range(count)] * (4 * count), width, height, mode, forbids)


def words(*ns):
    return pack(f"<{len(ns)}I", *ns)


def longest(count):
    """A sheet of so many patterns that is as long as one can be: 255 ids in each list, and 4,096 forbids."""
    return sheet([1] * count, [bytes(255)] * (4 * count), 1, 1, 0, [(0, 0, 0)] * 4096)


def varied(kind):
    """A sheet of 180 patterns, with lists of every length and 1,000 forbids, of which the last has this kind. Much of it lies past what is held."""
    lists = [bytes((n + i) % 256 for i in range(37 * n % 256)) for n in range(4 * 180)]
    return sheet([1] * 180, lists, 1, 1, 0, [(n, n, n % 2) for n in range(999)] + [(1, 1, kind)])


def alone(count, width, height):
    """Each pattern stands beside itself alone."""
    return sheet([1] * count, [[p] for p in range(count) for _ in range(4)], width, height, 3)


FREE = free([1, 2, 3], 4, 2, 1)
FALLING = [[0, 1, 2, 3, 4]] * 19 + [[1, 0]]
ONE_SIDED = [[0, 1]] * 7 + [[1]]
FILES = {
    "free.sheet": FREE,
    "practice.sheet": sheet_bytes(),
    "held.sheet": free([1, 1, 1, 1], 5, 3, 3, [(7, 2, 1), (0, 0, 0), (14, 3, 0)]),
    "checker.sheet": sheet([1, 1], [[1]] * 4 + [[0]] * 4, 3, 1, 1, [(0, 0, 1)]),
    "wide.sheet": free([1] * 8, 64, 8, 2),
    "4096.sheet": alone(64, 8, 8),
    "4100.sheet": alone(41, 10, 10),
    "size.sheet": free([1, 2, 3], 65, 1, 0),
    "wrap.sheet": free([1, 2, 3], 4, 2, 4),
    "count.sheet": free([], 4, 2, 1),
    "weights.sheet": free([1024, 1], 4, 2, 1),
    "list.sheet": free([1, 2, 3], 4, 2, 1).replace(bytes([3, 0, 1, 2]), bytes([3, 0, 2, 1]), 1),
    "disagree.sheet": sheet([1, 1], ONE_SIDED, 3, 1, 1),
    "cell.sheet": free([1, 2, 3], 4, 2, 1, [(7, 2, 0), (8, 3, 0)]),
    "pattern.sheet": free([1, 2, 3], 4, 2, 1, [(7, 2, 0), (0, 0, 1), (7, 3, 0), (8, 0, 0)]),
    "kind.sheet": free([1, 2, 3], 4, 2, 1, [(7, 0, 2)]),
    "cut.sheet": FREE[:-1],
    "more.sheet": FREE + b"\0",
    "empty.sheet": b"",
    "large.sheet": free([1] * 5, 32, 32, 0),
    "large-and-wrong.sheet": sheet([1] * 5, FALLING, 32, 32, 0),
    "90272.sheet": longest(64),
    "91298.sheet": longest(65),
    "varied.sheet": varied(1),
    "varied-kind.sheet": varied(2),
    "varied-cut.sheet": varied(1)[:-1],
    "varied-more.sheet": varied(1) + b"\0",
    "90273.sheet": record(1, pack("<H", 65) + bytes(130)) + bytes(90273 - 138),
    "eight.noise": words(5, 3, 8, 1, 9, 2, 7, 4),
    "seven.noise": words(5, 3, 8, 1, 9, 2, 7),
    "empty.noise": b"",
    "long.noise": bytes(4097),
    "three.words": words(4, 10, 2),
    "eight.words": words(4, 10, 2, 7, 1, 3, 11, 5),
    "empty.words": b"",
    "long.words": words(4, 10, 2, 7, 1, 3, 11, 5) + bytes(4065),
    "odd": bytes(5),
    "folder/file": b"",
}
LONG_NAME = "x" * 256
COMMANDS = f"""
--seed 3
--seed 7 practice.sheet
--seed 3 free.sheet seeded.result
bytes seeded.result
--seed 4 free.sheet --seed 3
--svg practice.svg
text practice.svg
--svg held.svg --seed 4294967295 held.sheet
text held.svg
--svg wide.svg --seed 3 wide.sheet
text wide.svg
free.sheet eight.noise three.words paused.result
bytes paused.result
free.sheet eight.noise empty.words
free.sheet eight.noise eight.words
free.sheet eight.noise long.words
--svg free.svg free.sheet eight.noise eight.words decided.result
bytes decided.result
text free.svg
--seed 3 checker.sheet contradiction.result
bytes contradiction.result
--seed 3 4096.sheet
--seed
--seed three
--seed 4294967296
--seed ''
--svg
--svg --seed 3
--help
-h
free.sheet
free.sheet eight.noise
free.sheet eight.noise eight.words more.result fifth
--seed 3 free.sheet eight.noise eight.words more.result fifth
--seed 3 free.sheet eight.noise eight.words
--seed 3 none.sheet
--seed 3 \x1b[7mnone\x7f\t✓.sheet
--seed 3 '' refused.result
free.sheet '' eight.words refused.result
free.sheet eight.noise '' refused.result
--svg refused.svg --seed 3 free.sheet ''
--svg '' --seed 3 free.sheet refused.result
--svg ''
--seed 3 folder
--seed 3 free.sheet/free.sheet
free.sheet none.noise eight.words
free.sheet eight.noise none.words
free.sheet folder eight.words
free.sheet odd eight.words refused.result
free.sheet eight.noise odd refused.result
--seed 3 free.sheet free.sheet
--svg eight.noise free.sheet eight.noise eight.words
--svg both --seed 3 free.sheet both
bytes free.sheet
--seed 3 size.sheet refused.result
--seed 3 wrap.sheet refused.result
--seed 3 count.sheet refused.result
--seed 3 weights.sheet refused.result
free.sheet seven.noise eight.words refused.result
free.sheet empty.noise eight.words refused.result
free.sheet long.noise eight.words refused.result
--seed 3 list.sheet refused.result
--seed 3 disagree.sheet refused.result
--seed 3 cell.sheet refused.result
--seed 3 pattern.sheet refused.result
--seed 3 kind.sheet refused.result
--seed 3 cut.sheet refused.result
--seed 3 more.sheet refused.result
--seed 3 empty.sheet refused.result
--seed 3 90272.sheet refused.result
--seed 3 91298.sheet refused.result
--seed 3 varied.sheet refused.result
--seed 3 varied-kind.sheet refused.result
--seed 3 varied-cut.sheet refused.result
--seed 3 varied-more.sheet refused.result
--seed 3 90273.sheet refused.result
--seed 3 /dev/zero refused.result
--seed 3 4100.sheet refused.result
--seed 3 large.sheet refused.result
--seed 3 large-and-wrong.sheet refused.result
--svg refused.svg --seed 3 free.sheet none/free.result
--svg refused.svg --seed 3 free.sheet folder
--svg refused.svg --seed 3 free.sheet {LONG_NAME}
--svg refused.svg --seed 3 free.sheet /dev/full
--svg none/free.svg --seed 3 free.sheet
--svg /dev/full --seed 3 free.sheet
text refused.result
text refused.svg
"""

for name, content in FILES.items():
    makedirs(f"{DATA}/{name}".rpartition("/")[0], exist_ok=True)
    with open(f"{DATA}/{name}", "wb") as file:
        file.write(content)
lines = []
for command in COMMANDS.strip().split("\n"):
    lines += ["then"] if lines else []
    lines += ["" if word == "''" else word for word in command.split(" ")]
with open("crates/rehearsal/args", "w", encoding="utf-8") as file:
    file.write("".join(line + "\n" for line in lines))
