"""The texts that rows name, which stand for an input or an output.

Those of levels 0 to 2 were worked by hand. The others say what stands in the files of folders.py, as
docs/FORMATS.md has it.
"""
import functools

from common import DIGEST, ENTRY, HEADER, boards_of, text
from folders import NO_PLAN, files_of, name_of
from worked import LEVELS


def line(value, plan, distance):
    """The line of an entry."""
    return f"{value} {'-' if plan is None else plan} {distance}"


def lines(level, limit, entries):
    """The lines of a level."""
    return [f"level {level} limit {limit}", *(line(*entry) for entry in entries)]


def block(file):
    """The lines of a level, from its file."""
    _, _, level, _, _, limit, _ = HEADER.unpack_from(file)
    packed = ENTRY.iter_unpack(file[HEADER.size : -DIGEST])
    entries = [(value, None if plan == NO_PLAN else plan, distance) for value, plan, distance in packed]
    return lines(level, limit, entries)


def blocks(folder):
    """The lines of each level in a folder."""
    files = files_of(folder)
    return [block(files[name_of(level)]) for level in range(len(files))]


def changed(top, first):
    """The same of levels 0 to this one, with another line for the first board of the last."""
    found = blocks(f"levels_0_to_{top}")
    found[-1][1] = first
    return found


def boards(level):
    """The boards of a level that was worked by hand, each with its entry."""
    _, entries = LEVELS[level]
    return [f"{text(pits)} {line(*entry)}" for pits, entry in zip(boards_of(level), entries)]


TEXTS = {
    "worked_levels_0_to_2": lambda: [lines(level, *worked) for level, worked in enumerate(LEVELS)],
    "worked_boards_of_level_2": lambda: [boards(2)],
    # of the first board of level 3, whose mover has lost its three stones, another value
    "levels_0_to_3_of_a_wrong_gain": lambda: changed(3, "-2 - 0"),
    "levels_0_to_3_of_a_value_too_great": lambda: changed(3, "4 - 0"),
}


@functools.cache
def text_of(name):
    """The text of this name, or that of the folder of this name."""
    found = TEXTS[name]() if name in TEXTS else blocks(name)
    return "".join(f"{row}\n" for rows in found for row in rows).encode()
