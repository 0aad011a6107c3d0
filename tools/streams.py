#!/usr/bin/env python3
"""Cuts the recorded stream of replay at every byte of a case, and holds what the program writes and says to docs/RULES.md, "Programs".

Run from the repository's root, after `./replay`, or `rt run` in crates/replay. The gate runs a program once and compares standard output alone; where a stream ends,
that it cannot be read, and that an answer cannot be written, is told on standard error. /dev/full, which takes no byte, is Linux's."""
from struct import calcsize, unpack_from
from subprocess import PIPE, run

PROGRAM = "crates/replay/out/replay"
CUT_OFF, UNREADABLE = b"replay: the stream is cut off in a case\n", b"replay: the stream cannot be read\n"
UNWRITTEN = b"replay: the answer could not be written\n"


def end_of(stream, at):
    """Where the case that begins there ends."""
    for size in (1, 4, 4):
        (many,) = unpack_from("<I", stream, at)
        at += calcsize("<I") + size * many
    return at


def cut(stream, start, end, answers):
    """Every way to cut a case short, and the stream that ends before it, against what the cases before it are answered."""
    for length in range(start, end):
        told = run([PROGRAM], input=stream[:length], capture_output=True)
        assert told.stdout == answers, length
        assert told.stderr == (CUT_OFF if length > start else b""), length


def unwritten(end):
    """An answer that cannot be written is the last: it is said once, and nothing is read past the first case, which ends there."""
    with open("crates/replay/stdin", "rb", buffering=0) as stream, open("/dev/full", "wb") as full:
        told = run([PROGRAM], stdin=stream, stdout=full, stderr=PIPE)
        assert told.stderr == UNWRITTEN and stream.tell() == end


def main():
    stream = open("crates/replay/stdin", "rb").read()
    start = end_of(stream, 0)
    end = end_of(stream, start)
    whole = run([PROGRAM], input=stream[:start], capture_output=True)
    assert whole.stderr == b"" and open("crates/replay/stdout", "rb").read().startswith(whole.stdout)
    cut(stream, start, end, whole.stdout)
    told = run(f"{PROGRAM} < .", shell=True, capture_output=True)
    assert told.stdout == b"" and told.stderr == UNREADABLE
    unwritten(start)
    print(f"replay: {end - start} cuts of a case, a stream that cannot be read, and an answer that cannot be written")


main()
