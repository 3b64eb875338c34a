#!/usr/bin/env python3
"""Looks a board up in the file of its level, by docs/FORMATS.md alone.

    python3 examples/look_up.py levels 1,0,0,0,0,0/0,0,1,0,0,0

prints `V P D` as `./awari ask` does: the value, the plan and the distance. It sees to it that the
file is whole and is what its digest says. That what it says is right, `./awari verify levels` says.
"""
import hashlib
import re
import struct
import sys
from math import comb
from pathlib import Path

HEADER = struct.Struct(">4sHBBQI32s")
ENTRY = struct.Struct(">bBI")
NO_PLAN = 255

PIT = "(?:0|[1-9][0-9]?)"
SIDE = f"{PIT}(?:,{PIT}){{5}}"
BOARD = re.compile(f"{SIDE}/{SIDE}")


def size(stones):
    return comb(stones + 11, 11)


def rank(board):
    """How many boards of as many stones come before this one, pit 0 first."""
    before, left = 0, sum(board)
    for pits_behind, stones in zip(range(11, 0, -1), board):
        for fewer in range(stones):
            before += comb(left - fewer + pits_behind - 1, pits_behind - 1)
        left -= stones
    return before


def entries(path, stones):
    file = path.read_bytes()
    content, digest = file[:-32], file[-32:]
    if hashlib.sha256(content).digest() != digest:
        sys.exit(f"{path}: the digest is not that of the bytes before it")
    magic, version, level, zero, count, _limit, _below = HEADER.unpack_from(content)
    if (magic, version, level, zero, count) != (b"AWDB", 2, stones, 0, size(stones)):
        sys.exit(f"{path}: no file of version 2 of level {stones}")
    if len(content) != HEADER.size + ENTRY.size * count:
        sys.exit(f"{path}: another length than that of {count} entries")
    return content[HEADER.size:]


def main(folder, text):
    if not BOARD.fullmatch(text):
        sys.exit(f"{text}: no board")
    board = [int(pit) for pit in re.findall("[0-9]+", text)]
    path = Path(folder) / f"level_{sum(board):02}.awdb"
    value, plan, distance = ENTRY.unpack_from(entries(path, sum(board)), ENTRY.size * rank(board))
    print(value, "-" if plan == NO_PLAN else plan, distance)


if __name__ == "__main__":
    if len(sys.argv) != 3:
        sys.exit(__doc__)
    try:
        main(*sys.argv[1:])
    except (OSError, ValueError) as fault:
        sys.exit(str(fault))
