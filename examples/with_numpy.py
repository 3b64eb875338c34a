#!/usr/bin/env python3
"""Reads the file of a level as an array of numpy, where it lies.

    python3 examples/with_numpy.py FOLDER LEVEL

prints how many boards are won, even and lost, and the mean of the values and of the distances. It runs no
program, and nothing is verified: `awari verify FOLDER` does that.
"""
import sys
from pathlib import Path

import numpy

# an entry as docs/FORMATS.md has it, and the bytes before the entries and behind them
ENTRY = numpy.dtype([("value", "i1"), ("plan", "u1"), ("distance", ">u4")])
HEADER, DIGEST = 52, 32


def main(folder, level):
    path = Path(folder) / f"level_{level:02}.awdb"
    boards = (path.stat().st_size - HEADER - DIGEST) // ENTRY.itemsize
    entries = numpy.memmap(path, ENTRY, "r", offset=HEADER, shape=boards)
    value, distance = entries["value"], entries["distance"]
    won, even, lost = (int(which.sum()) for which in (value > 0, value == 0, value < 0))
    print(f"level {level} boards {boards} won {won} even {even} lost {lost} limit {distance.max()}")
    print(f"mean value {value.mean():.6f} distance {distance.mean():.6f}")


if __name__ == "__main__":
    if len(sys.argv) != 3:
        sys.exit(__doc__)
    main(sys.argv[1], int(sys.argv[2]))
