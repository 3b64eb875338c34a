"""Makes the folders of cases.rows in a new folder: folders.py ROOM

Each has levels 0 to 3 of examples/levels, and what is wrong stands in the place of level 2. It is made by
docs/FORMATS.md, and shares nothing with the library.
"""
import hashlib
import os
import sys
from pathlib import Path

sys.path.append(str(Path(__file__).resolve().parent.parent))
from common import DIGEST, ENTRY, HEADER, TOP

LEVELS = TOP / "examples" / "levels"
WRONG, HIGHEST = 2, 3
FIELDS = ("magic", "version", "level", "zero", "count", "limit", "below")
# the board of the rows about wrong folders, 1,0,0,0,0,0/0,0,1,0,0,0: its rank
RANK = 69


def name_of(level):
    """The name of a level's file."""
    return f"level_{level:02}.awdb"


def sealed(body):
    """A body with the digest that it has."""
    return bytes(body) + hashlib.sha256(body).digest()


def with_field(file, name, value):
    """The file with another header field, and the digest of that."""
    fields = dict(zip(FIELDS, HEADER.unpack_from(file))) | {name: value}
    return sealed(HEADER.pack(*fields.values()) + file[HEADER.size : -DIGEST])


def with_byte(file, at, byte):
    """The file with another byte, and the digest that it had."""
    return file[:at] + bytes([byte]) + file[at + 1 :]


def with_entry(file, rank, *entry):
    """The file with another entry of this rank, and the digest of that."""
    body = bytearray(file[:-DIGEST])
    ENTRY.pack_into(body, HEADER.size + ENTRY.size * rank, *entry)
    return sealed(body)


def without_level(file):
    """The file with a header that says level 25, whose other bytes are the same."""
    return with_field(file, "level", 25)


def wrong_files(right, above):
    """Wrong files in the place of level 2, by the names of their folders."""
    value, plan, distance = ENTRY.unpack_from(right, HEADER.size)
    return {
        "empty": b"", "cut": right[:100], "short": right[:-1], "longer": right + b"x",
        "magic": with_field(right, "magic", b"AWDC"), "version": with_field(right, "version", 3),
        "old": with_field(right, "version", 1), "high": without_level(right), "count": with_field(right, "count", 77),
        "form": with_byte(right, HEADER.size + 1, 6), "digest": with_byte(right, HEADER.size, 1),
        "over": with_field(right, "below", bytes(32)), "another": above, "limit": with_field(right, "limit", 10),
        "endless": with_field(right, "limit", 2**32 - 1), "value": with_entry(right, 0, value + 1, plan, distance),
        "far": with_entry(right, RANK, 2, 0, 4_000_000_000), "most": with_entry(right, RANK, 100, 0, 8),
        "illegal": with_entry(right, RANK, 2, 3, 8), "less": with_entry(right, RANK, 1, 0, 8),
        "ended": with_entry(right, 0, value, 1, distance),
    }


def no_files():
    """What has the name of level 2 and is no file: how it is made."""
    return {
        "directory": os.mkdir, "pipe": os.mkfifo, "loop": lambda path: os.symlink(path, path),
        "device": lambda path: os.symlink("/dev/zero", path), "gap": lambda path: None,
    }


def make(room, name, files):
    """Makes a folder of these files, by their levels."""
    folder = room / name
    folder.mkdir()
    for level, file in files.items():
        (folder / name_of(level)).write_bytes(file)
    return folder


def main(room):
    room.mkdir(exist_ok=True)
    whole = {level: (LEVELS / name_of(level)).read_bytes() for level in range(len([*LEVELS.glob("level_*.awdb")]))}
    make(room, "levels", whole)
    make(room, "none", {})
    make(room, "headless", {1: whole[1]})
    make(room, "many", whole | {level: b"" for level in range(len(whole), 27)})
    right = {level: whole[level] for level in range(HIGHEST + 1)}
    for name, file in wrong_files(right[WRONG], right[HIGHEST]).items():
        make(room, name, right | {WRONG: file})
    for name, put in no_files().items():
        folder = make(room, name, {level: file for level, file in right.items() if level != WRONG})
        put(folder / name_of(WRONG))


if __name__ == "__main__":
    main(Path(sys.argv[1]))
