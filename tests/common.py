"""What the tests in Python share: the program that is tried, and counts of what passed and what failed."""
import csv
import functools
import os
import struct
import subprocess
import sys
import tempfile
from math import comb
from pathlib import Path

TOP = Path(__file__).resolve().parent.parent
# the parts of a level's file, as docs/FORMATS.md says
HEADER, ENTRY, DIGEST = struct.Struct(">4sHBBQI32s"), struct.Struct(">bBI"), 32
passed = failed = 0


def find_program():
    """The program that is tried, as tests/common.sh finds it."""
    asked = '. "$0" && find_program && echo "$program"'
    found = subprocess.run(["bash", "-c", asked, TOP / "tests/common.sh"], stdout=subprocess.PIPE, text=True, check=False)
    return found.stdout.rstrip("\n") or sys.exit(1)


def room_in_memory():
    """A folder that goes at the end: in memory if that can be, since there no save has to wait for the disk."""
    return tempfile.TemporaryDirectory(dir="/dev/shm" if os.access("/dev/shm", os.W_OK) else None)


@functools.cache
def digests():
    """The digest of each level's file, as docs/levels.csv has them."""
    with open(TOP / "docs/levels.csv", newline="") as file:
        return {int(row["level"]): row["digest"] for row in csv.DictReader(file)}


def levels_in(folder):
    """How many levels the folder has. It ends the test if one below is missing, or has another digest."""
    names = sorted(path.name for path in folder.glob("level_*.awdb"))
    for level, name in enumerate(names):
        with open(folder / name, "rb") as file:
            file.seek(-DIGEST, 2)
            if name != f"level_{level:02}.awdb" or file.read().hex() != digests()[level]:
                sys.exit(f"{folder / name} is not level {level}")
    return len(names)


def size(stones):
    """How many boards have so many stones."""
    return comb(stones + 11, 11)


def boards_of(stones, pits=12):
    """Every board of so many stones, by rank."""
    if pits == 1:
        yield [stones]
        return
    for first in range(stones + 1):
        for rest in boards_of(stones - first, pits - 1):
            yield [first, *rest]


def text(pits):
    """The board as the program writes it."""
    return ",".join(map(str, pits[:6])) + "/" + ",".join(map(str, pits[6:]))


def expect_that(what, holds, *said):
    """Counts whether this holds, and says these if it does not."""
    global passed, failed
    passed, failed = passed + bool(holds), failed + (not holds)
    if not holds:
        print(f"{what}:", *said, flush=True)


def expect(what, found, wanted):
    expect_that(what, found == wanted, f"found {found!r}, wanted {wanted!r}")


def finish():
    """Ends with the last line, and with 1 if anything failed."""
    print(f"{passed} passed, {failed} failed")
    sys.exit(failed > 0)
