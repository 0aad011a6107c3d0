#!/usr/bin/env python3
"""Writes stdin and stdout of the programs recorded and replay from vectors/: what was recorded, and what must be answered to it.

Run from the repository's root. What the streams are, crates/recorded/src/main.rt and crates/replay/src/main.rt say. Every answer is as
recorded, but for what is left of starting domains where propagation is not refused: the greatest consistent subset, computed here from its
definition; for what a sheet of refusals.txt says, which is taken from its bytes here; for calls with a slice of a wrong length, which are 5;
for runs at the size that replay takes, in which nothing propagates, so that the noise and the words say all; for bytes longer than any sheet of 64
patterns, which are refused by whether they are a sheet, and that is judged here; and for what only replay refuses."""
from struct import pack, unpack

RUN, REFUSAL, PROPAGATE, LOOKUP, WRITE, READ = range(6)
SLICES = ["weights", "offsets", "noise", "words", "forbids"]
MEMORY = ["domains", "counts", "pending", "floats", "marks"]


def blocks(name):
    """The cases of a file, each its lines by their first word, with every choice in order."""
    case = {}
    for line in [*open(f"vectors/{name}.txt"), "\n"]:
        word, _, rest = line.rstrip("\n").partition(" ")
        if word == "#":
            continue
        if word == "choice":
            case.setdefault("choices", []).append(rest)
        elif word:
            case[word] = rest
        elif case:
            yield case
            case = {}


def numbers(case, word):
    """The numbers of a line. `* N RECORD LAST` is N times a record and then another once."""
    entries = case.get(word, "").split()
    if entries[:1] == ["*"]:
        half = (len(entries) - 2) // 2
        entries = entries[2:2 + half] * int(entries[1]) + entries[2 + half:]
    return [int(n) for n in entries]


def resized(ns, by):
    """A slice that is lent longer or shorter."""
    return ns + [0] * by if by >= 0 else ns[:by]


def lent_domains(call, case, off):
    """How many domains are lent; where a sheet is written, how many bytes."""
    width, height, _ = numbers(case, "grid") or [0, 0, 0]
    many = {PROPAGATE: len(numbers(case, "domains")), WRITE: int(case.get("room", 0))}
    return many.get(call, int(case.get("outputs", width * height))) + off.get("domains", 0)


def stream(call, case, off={}):
    """The bytes of a call. Memory has its published length but where the case says otherwise, or `off` by how much a slice is longer."""
    (count,) = numbers(case, "patterns")
    width, height, mode = numbers(case, "grid") or [0, 0, 0]
    pattern, direction = numbers(case, "ask") or [0, 0]
    cells = width * height
    slices = [resized(numbers(case, word), off.get(word, 0)) for word in SLICES]
    start = numbers(case, "domains") if call == PROPAGATE else []
    slices.append([half for word in start for half in (word % 2 ** 32, word >> 32)])
    more = int(case.get("work", 0))
    work = [4 * cells * count, cells * count, 2 * cells, 2 * cells + (cells + 31) // 32]
    memory = [lent_domains(call, case, off), *(n + more + off.get(word, 0) for word, n in zip(MEMORY[1:], work))]
    return packed([call, count, width, height, mode, pattern, direction], slices, memory, numbers(case, "ids"))


def packed(scalars, slices, memory, ids):
    head = [*scalars, *map(len, slices), *memory]
    return b"".join(pack(f"<{len(ns)}I", *ns) for ns in [head, *slices, [len(ids)]]) + bytes(ids)


def neighbours(case):
    """For each cell, its neighbour in each direction or None."""
    width, height, mode = numbers(case, "grid")
    for cell in range(width * height):
        near = []
        for dx, dy in (0, -1), (1, 0), (0, 1), (-1, 0):
            x, y = cell % width + dx, cell // width + dy
            inside = (mode & 1 or 0 <= x < width) and (mode & 2 or 0 <= y < height)
            near.append(y % height * width + x % width if inside else None)
        yield near


def remaining(case):
    """The greatest consistent subset of the starting domains, zero where a cell is left empty."""
    offsets, ids, near = numbers(case, "offsets"), numbers(case, "ids"), list(neighbours(case))
    left = [{p for p in range(64) if word >> p & 1} for word in numbers(case, "domains")]

    def supported(c, p):
        return all(n is None or left[n] & set(ids[offsets[4 * p + d]:offsets[4 * p + d + 1]]) for d, n in enumerate(near[c]))

    gone = True
    while gone:
        gone = [(c, p) for c in range(len(left)) for p in left[c] if not supported(c, p)]
        for c, p in gone:
            left[c].discard(p)
    return [sum(1 << p for p in ps) if all(left) else 0 for ps in left]


def line(word, entries):
    return " ".join([word, *map(str, entries)]) + "\n"


def told(call, case, off={}):
    """What is printed of a call. A slice of another length than is published is refused as 5, and all stays as it was."""
    if call == RUN:
        return line("end", case["end"].split()) + line("domains", case["domains"].split()) + "".join(f"choice {c}\n" for c in case.get("choices", []))
    number = "5" if off else case["refused"]
    refused = line("refused", [number])
    if call == PROPAGATE:
        start = resized(numbers(case, "domains"), off.get("domains", 0))
        return refused + line("domains", remaining(case) if number == "0" else start)
    if call == LOOKUP:
        return line("part", [] if off else case["part"].split()) + refused
    if call == WRITE:
        room = lent_domains(call, case, off)
        sheet = sheet_bytes(case) if number == "0" else b""
        return refused + ("" if number != "0" else line("sheet", [sheet.hex()])) + line("stayed", [room - len(sheet)])
    return refused


# ---- recorded: sheets that are read

# how many entries are lent past a sheet's last id and its last forbid
SPARE = [0, 0, 2, 4]


def parsed(sheet):
    """What the bytes of a sheet say: weights, offsets, ids, the grid, and the numbers of the forbids."""
    payloads = []
    while sheet:
        size = int.from_bytes(sheet[:4], "little")
        payloads.append(sheet[6:4 + size])
        sheet = sheet[4 + size:]
    (count, *weights), grid, forbids = (list(unpack(f"<{len(payloads[k]) // 2}H", payloads[k])) for k in (0, 2, 3))
    lists, offsets, ids = payloads[1], [0], []
    while lists:
        ids += lists[1:1 + lists[0]]
        offsets.append(len(ids))
        lists = lists[1 + lists[0]:]
    return weights, offsets, ids, grid, forbids


def stored(case):
    """The numbers of the forbids as a sheet has them: any keep but 0 is 1."""
    return [n if i % 3 < 2 else min(n, 1) for i, n in enumerate(numbers(case, "forbids"))]


def said(case):
    """The same, as the case's own lines have it."""
    return *(numbers(case, word) for word in ("weights", "offsets", "ids", "grid")), stored(case)


def read(case, number, off=[0, 0, 0, 0]):
    """The bytes of a call that reads a sheet, and what is printed of it. Where it is no sheet, memory for ids and forbids alone is lent."""
    sheet = sheet_bytes(case)
    weights, offsets, ids, grid, forbids = said(case) if "ids" in case else parsed(sheet) if number != 10 else [[]] * 5
    slices = [weights, offsets, ids, forbids]
    lent = [len(ns) + spare + more for ns, spare, more in zip(slices, SPARE, off)]
    sizes = line("refused", [0]) + line("sizes", [len(weights), len(ids), *grid, len(forbids) // 3])
    answer = line("refused", [10]) if number == 10 else sizes
    if number != 0:
        answer += line("refused", [number]) + line("stayed", lent)
    else:
        answer += sizes + "".join(line(*entries) for entries in zip(["weights", "offsets", "ids", "forbids"], slices)) + line("stayed", SPARE)
    return packed([READ, 0, 0, 0, 0, 0, 0], [[]] * 6, [*lent, 0], sheet), answer


# ---- replay: sheets with noise and words

HELD, LARGEST, TOO_LARGE = 90272, 4096, 65535


def u16s(ns):
    return pack(f"<{len(ns)}H", *ns)


def record(kind, payload):
    return pack("<IH", 2 + len(payload), kind) + payload


def sheet_bytes(case):
    """The sheet of a case, as recorded or from its numbers."""
    if "sheet" in case:
        start, _, more = case["sheet"].partition(" * ")
        many, _, tail = more.partition(" ")
        return bytes.fromhex(start) + bytes.fromhex(tail) * int(many or 0)
    weights, offsets, ids, grid, forbids = said(case)
    lists = b"".join(bytes([end - start, *ids[start:end]]) for start, end in zip(offsets, offsets[1:]))
    return record(1, u16s([len(weights), *weights])) + record(2, lists) + record(3, u16s(grid)) + record(4, u16s(forbids))


def result_bytes(case):
    """The result of a case, as recorded or from its numbers."""
    if "result" in case:
        return bytes.fromhex(case["result"])
    domains = numbers(case, "domains")
    return record(5, u16s(numbers(case, "end")) + pack(f"<{len(domains)}Q", *domains))


def replayed(sheet, noise, words):
    """The bytes of a case."""
    return b"".join([pack("<I", len(sheet)), sheet, *(pack(f"<I{len(ns)}I", len(ns), *ns) for ns in (noise, words))])


def done(case):
    """What an accepted case is answered."""
    width, height, _ = numbers(case, "grid")
    (count,) = numbers(case, "patterns")
    return u16s([TOO_LARGE]) if width * height * count > LARGEST else u16s([0]) + result_bytes(case)


def read_only(case):
    """A sheet alone, and its answer: its refusal. One that is accepted is lent noise for its one cell, and its forbids decide that."""
    sheet, number = sheet_bytes(case), int(case["refused"])
    if number:
        return replayed(sheet, [], []), u16s([number])
    return replayed(sheet, [1], []), u16s([0]) + record(5, u16s([0, 0]) + pack("<Q", 1))


def payloads_of(sheet):
    """The payloads of the records that bytes are, one of each kind in turn; none where they are not."""
    payloads = []
    for kind in range(1, 5):
        size = int.from_bytes(sheet[:4], "little")
        if size < 2 or len(sheet) < 4 + size or int.from_bytes(sheet[4:6], "little") != kind:
            return []
        payloads.append(sheet[6:4 + size])
        sheet = sheet[4 + size:]
    return [] if sheet else payloads


def well_formed(sheet):
    """Whether bytes are a sheet, by docs/RULES.md."""
    if not (payloads := payloads_of(sheet)):
        return False
    weights, lists, grid, forbids = payloads
    many, at = 0, 0
    while at < len(lists):
        many, at = many + 1, at + 1 + lists[at]
    count = int.from_bytes(weights[:2], "little")
    kinds = [int.from_bytes(forbids[k:k + 2], "little") for k in range(4, len(forbids), 6)]
    return (len(weights) >= 2 and len(weights) == 2 + 2 * count and many == 4 * count and at == len(lists) and len(grid) == 6
            and len(forbids) % 6 == 0 and len(forbids) <= 6 * 4096 and all(kind <= 1 for kind in kinds))


def long_refusal(sheet):
    """The refusal of more bytes than a sheet of up to 64 patterns has."""
    assert len(sheet) > HELD
    return u16s([3 if well_formed(sheet) else 10])


def varied(kind):
    """A sheet of 180 patterns, with lists of every length and 1,000 forbids, of which the last has this kind. Much of it lies past what is held."""
    lists = b"".join(bytes([37 * n % 256]) + bytes((n + i) % 256 for i in range(37 * n % 256)) for n in range(4 * 180))
    forbids = [x for n in range(999) for x in (n, n, n % 2)] + [1, 1, kind]
    return record(1, u16s([180] + [1] * 180)) + record(2, lists) + record(3, u16s([1, 1, 0])) + record(4, u16s(forbids))


def longest(count):
    """A sheet of so many patterns that is as long as one can be: 255 ids in each list, and 4,096 forbids."""
    return record(1, u16s([count] + [1] * count)) + record(2, bytes([255] + [0] * 255) * 4 * count) + record(3, u16s([1, 1, 0])) + record(4, bytes(6 * 4096))


def free(count, width, height):
    """A case in which every pattern may stand beside every other, with one weight for all, so that nothing propagates."""
    ids = [*range(count)]
    return {"weights": "1 " * count, "offsets": line("", range(0, 4 * count * count + 1, count)), "ids": line("", ids * 4 * count),
            "grid": f"{width} {height} 3", "patterns": str(count)}


def chosen(case, left=0):
    """Such a case with noise and words, and its answer by the rules: all entropies are the same, so the cells are chosen at by their noise, and the
    word for each names its pattern. The last cells of that order have no word, as many as are left."""
    (count,), (width, height, _) = numbers(case, "patterns"), numbers(case, "grid")
    cells = width * height
    noise = [(cell * 2654435769 + 7) % 2 ** 32 for cell in range(cells)]
    words = [(cell * 40503 + 11) * (cell + 3) % 2 ** 32 for cell in range(cells - left)]
    domains = [2 ** count - 1] * cells
    for cell, word in zip(sorted(range(cells), key=lambda cell: noise[cell]), words):
        domains[cell] = 1 << word % count
    result = record(5, u16s([2 if left else 0, len(words)]) + pack(f"<{cells}Q", *domains))
    return replayed(sheet_bytes(case), noise, words), u16s([0]) + result


def replay():
    runs = [case for name in ("runs", "large", "rules_only", "sheets") for case in blocks(name)]
    cases = [(replayed(sheet_bytes(c), numbers(c, "noise"), numbers(c, "words")), done(c)) for c in runs]
    alone = [c for c in blocks("refusals") if c["call"] == "read"]
    assert all(well_formed(sheet_bytes(c)) == (c["refused"] != "10") for c in alone)
    cases += [read_only(c) for c in alone]
    # words past those that a run can use are read past; so are noise words and a sheet that are more than this program has room for
    whole = next(c for c in runs if c.get("end", "2")[0] != "2" and numbers(c, "words"))
    sheet, noise, words = sheet_bytes(whole), numbers(whole, "noise"), numbers(whole, "words")
    cases += [(replayed(sheet, noise, words + [7] * 5000), done(whole)), (replayed(sheet, noise * 5000, words), u16s([5]))]
    assert len(longest(64)) == HELD
    cases += [(replayed(longest(64), noise, words), u16s([6]))]
    # of these all bytes are judged: two sheets of over 64 patterns, one that says so in bytes that do not fit it, and one that says nothing
    long = [longest(65), varied(1), varied(2), varied(1)[:-1], varied(1) + b"\0", record(1, u16s([65] + [0] * 65)) + bytes(HELD - 137), bytes(HELD + 1)]
    cases += [(replayed(b, noise, words), long_refusal(b)) for b in long] + [(replayed(sheet, noise, words), done(whole))]
    # at the size that is taken, 4,096 cells times patterns, and just past it, which is told before the noise is looked at
    cases += [chosen(free(4, 32, 32)), chosen(free(4, 32, 32), left=1), chosen(free(64, 8, 8)), (replayed(sheet_bytes(free(41, 10, 10)), [], []), u16s([TOO_LARGE]))]
    # the stream ends in a case: in its last word, of which three bytes are there
    cut = replayed(sheet, noise, words)[:-1]
    open("crates/replay/stdin", "wb").write(b"".join(stream for stream, _ in cases) + cut)
    open("crates/replay/stdout", "wb").write(b"".join(answer for _, answer in cases))
    print(f"replay: {len(cases)} cases and one that is cut off")


# ---- recorded: the whole

def one(name, call):
    """The first case that is accepted and has a forbid, or starting domains, or a list that is asked for."""
    accepted = (c for c in blocks(name) if c.get("call", call) == call and c.get("refused", "0") == "0")
    return next(c for c in accepted if numbers(c, "forbids") or call in ("propagate", "lookup"))


def misfits():
    """Calls that are accepted but for one slice, in turn one entry too long and one too short: call, case, and by how much."""
    work = {REFUSAL: ["weights", "offsets", "forbids", "noise", *MEMORY], PROPAGATE: ["offsets", *MEMORY[:3]], LOOKUP: ["offsets"],
            WRITE: ["weights", "offsets", "forbids"]}
    cases = {REFUSAL: one("runs", "run"), PROPAGATE: one("refusals", "propagate"), LOOKUP: one("refusals", "lookup"), WRITE: one("refusals", "write")}
    return [(call, cases[call], {word: by}) for call, words in work.items() for word in words for by in (1, -1)]


def recorded():
    calls = [(RUN, case) for name in ("runs", "large", "rules_only") for case in blocks(name)]
    kinds = {"run": REFUSAL, "propagate": PROPAGATE, "lookup": LOOKUP, "write": WRITE}
    calls += [(kinds[case["call"]], case) for case in blocks("refusals") if case["call"] in kinds]
    # with three bytes to spare
    calls += [(WRITE, {**case, "refused": "0", "room": len(sheet_bytes(case)) + 3}) for case in blocks("sheets")]
    calls += misfits()
    cases = [(stream(*call), told(*call)) for call in calls]
    cases += [read(case, 0) for case in blocks("sheets")]
    cases += [read(case, int(case["refused"])) for case in blocks("refusals") if case["call"] == "read"]
    whole = one("sheets", "read")
    offs = [[by if k == slot else 0 for k in range(4)] for slot in range(2) for by in (1, -1)] + [[0, 0, -3, 0], [0, 0, 0, -5]]
    cases += [read(whole, 5, off) for off in offs]
    open("crates/recorded/stdin", "wb").write(b"".join(stream for stream, _ in cases))
    open("crates/recorded/stdout", "w").write("".join(answer for _, answer in cases))
    print(f"recorded: {len(cases)} calls")


recorded()
replay()
