#!/usr/bin/env python3
"""Draws how soon the won and the lost boards of a level come to a capture or the end.

    pip install ./bindings
    python3 examples/distances.py levels 6

It needs numpy. The level's file is mapped, and nothing is verified: `awari verify` does that.
"""
import signal
import sys

import numpy
from awari import Levels

WIDTH = 50
ROWS = 20


def histogram(distances, top):
    """How many distances lie in each row of as many plies, from 1 to the top."""
    step = -(-top // ROWS)
    return numpy.histogram(distances, bins=range(1, top + step + 1, step))


def draw(name, distances, boards, top):
    print(f"\n{name}: {len(distances)} of {boards} boards")
    if not len(distances):
        return
    print(f"half of them within {int(numpy.median(distances))} plies, the farthest in {distances.max()}")
    counts, edges = histogram(distances, top)
    for count, first, end in zip(counts, edges, edges[1:]):
        print(f"{first:4} to {end - 1:4} plies {count:9} {'#' * round(WIDTH * count / counts.max())}")


def main(folder, level):
    entries = Levels.mapped(folder, level).entries(level)
    value, distance = entries["value"], entries["distance"]
    top = max(1, int(distance.max()))
    print(f"level {level}: the farthest board is {distance.max()} plies from a capture or the end")
    draw("won", distance[value > 0], len(entries), top)
    draw("lost", distance[value < 0], len(entries), top)
    print(f"\neven: {int((value == 0).sum())} of {len(entries)} boards, on which neither side can win a stone")


if __name__ == "__main__":
    if len(sys.argv) != 3:
        sys.exit(__doc__)
    # who reads the lines through a pipe may have enough of them
    signal.signal(signal.SIGPIPE, signal.SIG_DFL)
    main(sys.argv[1], int(sys.argv[2]))
