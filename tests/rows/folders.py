"""The folders that rows name.

The program builds the right levels, whose files have to have the digests of docs/levels.csv. All else is made
by docs/FORMATS.md, and shares nothing with the program: what is wrong in a folder, and levels worked by hand.
"""
import functools
import hashlib
import re
import subprocess
import sys
import tempfile
from functools import partial
from pathlib import Path

from common import DIGEST, ENTRY, HEADER, find_program, levels_in
from worked import LEVELS

RIGHT = re.compile(r"levels_0(?:_to_(\d+))?")
VERSION, LIMIT, BELOW, ENTRIES = 5, 16, 20, HEADER.size
NO_PLAN = 255
# the twelve boards of level 2 whose forced moves lead in a circle, and last the one that leads into it: their
# ranks, and distances that fall all the way but where the circle closes. All are worth 0.
CIRCLE = (
    (71, 12), (70, 11), (59, 10), (58, 9), (48, 8), (47, 7), (38, 6), (37, 5), (29, 4), (28, 3), (21, 2),
    (72, 1), (61, 12),
)
WON, LOST = 2, 0xFE


# ---- files

def name_of(level):
    """The name of a level's file."""
    return f"level_{level:02}.awdb"


def sealed(body):
    """The file with this body, and the digest that it has then."""
    return bytes(body) + hashlib.sha256(body).digest()


def body_of(file):
    """The file without its digest."""
    return bytearray(file[:-DIGEST])


def with_bytes(file, place, content):
    """The file with these bytes from this place on. Its digest is that of the file before."""
    return file[:place] + bytes(content) + file[place + len(content) :]


def put(file, place, content):
    """The same, with its own digest."""
    return sealed(with_bytes(file, place, content)[:-DIGEST])


def place_of(rank):
    """Where the entry of this rank stands."""
    return ENTRIES + ENTRY.size * rank


def put_limit(body, limit):
    """Gives the level another limit."""
    body[LIMIT:BELOW] = limit.to_bytes(4, "big")


def entry(value, plan, distance):
    """The bytes of an entry, whose plan may be none."""
    return ENTRY.pack(value, NO_PLAN if plan is None else plan, distance)


def file_of(level, limit, entries, below):
    """The file of a level, over one that ends in this digest."""
    header = HEADER.pack(b"AWDB", 2, level, 0, len(entries), limit, below)
    return sealed(header + b"".join(entry(*found) for found in entries))


def put_worth(body, rank, value, distance):
    """Gives the board of this rank another value and distance. Its plan stays."""
    body[place_of(rank)], body[place_of(rank) + 5] = value, distance


def false_circle(body, distance=None):
    """Has the boards of the circle won and lost in turn, with their distances or this one."""
    for rank, own in CIRCLE:
        put_worth(body, rank, LOST if own % 2 else WON, distance or own)


def doubled(body):
    """Doubles the limit and each distance, all of which are below 128."""
    for place in (BELOW - 1, *range(ENTRIES + 5, len(body), ENTRY.size)):
        body[place] *= 2


def unchanged(body):
    """Leaves all as it is."""


# ---- folders

@functools.cache
def right(top):
    """The files of levels 0 to this one."""
    with tempfile.TemporaryDirectory() as folder:
        words = [find_program(), "build", str(top), "--folder", folder]
        subprocess.run(words, stdout=subprocess.DEVNULL, check=False)
        if levels_in(Path(folder)) != top + 1:
            sys.exit(f"the program builds no levels to {top}")
        return {path.name: path.read_bytes() for path in Path(folder).iterdir()}


def levels(top, **others):
    """The files of levels 0 to this one, with these in the place of theirs or beside them."""
    return right(top) | {f"{name}.awdb": content for name, content in others.items()}


def gap(content):
    """A folder in which level 1 alone has a file."""
    return {name_of(1): content}


def worked():
    """The files of levels 0 to 2, worked by hand."""
    files, below = {}, bytes(DIGEST)
    for level, (limit, entries) in enumerate(LEVELS):
        file = file_of(level, limit, entries, below)
        files[name_of(level)], below = file, file[-DIGEST:]
    return files


def shown():
    """The files of levels 0 and 1, as docs/FORMATS.md shows them in hexadecimal."""
    first = sealed(bytes.fromhex("41574442 0002 00 00 0000000000000001 00000000" + "00" * DIGEST + "00ff00000000"))
    begin = bytes.fromhex("41574442 0002 01 00 000000000000000c 00000001")
    entries = bytes.fromhex("ffff00000000" * 6 + "ff0500000001" + "01ff00000000" * 5)
    return {name_of(0): first, name_of(1): sealed(begin + first[-DIGEST:] + entries)}


def aged(files, change=unchanged):
    """These files in version 1, each with this change."""
    found, below = {}, bytes(DIGEST)
    for name in sorted(files):
        body = body_of(files[name])
        body[VERSION], body[BELOW:ENTRIES] = 1, below
        change(body)
        found[name] = sealed(body)
        below = found[name][-DIGEST:]
    return found


@functools.cache
def old():
    """Levels 0 to 2 in version 1. Their digests begin as those that programs of that version wrote."""
    files = aged(right(2))
    if [files[name_of(level)][-DIGEST:].hex()[:8] for level in range(3)] != ["2b0a17a0", "045eb0f4", "9422298d"]:
        sys.exit("the files of version 1 have other digests")
    return files


def deceiving(files, limit, change):
    """These files, of which that of level 2 is made to deceive, and has this limit."""
    body = body_of(files[name_of(2)])
    change(body)
    put_limit(body, limit)
    return files | {name_of(2): sealed(body)}


def second():
    """The right file of level 1."""
    return right(1)[name_of(1)]


def third():
    """The right file of level 2."""
    return right(2)[name_of(2)]


def altered(place, content, file=second):
    """Levels 0 and 1, of which the last has these bytes from this place on, and no digest of its own."""
    return levels(1, level_01=with_bytes(file(), place, content))


def broken(rank, found, limit):
    """Levels 0 and 1, of which the last has this limit, and this entry for the board of this rank."""
    body = body_of(put(second(), place_of(rank), entry(*found)))
    put_limit(body, limit)
    return levels(1, level_01=sealed(body))


# limits that level 1 has not: three up to the number of its boards, and three above that
LIMITS = (0, 8, 12, 13, 255, 0xFF000001)
# the places of level 1 at which a byte is changed: of its header, of its entries and of its digest
CHANGED = (0, 19, 20, 52, 123, 124, 155)
# places of level 1, and a byte that is put there: in version 2, and in version 1
PUT = (
    (0, 0), (5, 1), (5, 3), (6, 13), (6, 25), (7, 1), (15, 0), (15, 13), (52, LOST), (53, 6), (53, 254), (89, 6),
)
PUT_OLD = ((5, 2), (5, 3), (6, 2), (6, 13), (7, 1))


def changed(place):
    """The file of level 1 with one bit changed."""
    return with_bytes(second(), place, [second()[place] ^ 1])


# what level 1 may have in the place of its file
OTHERS = {
    "foreign": lambda: b"AWDB",
    "short": lambda: b"AWD",
    "text": lambda: b"AWDC",
    "cut": lambda: second()[:155],
    "cut_in_its_header": lambda: second()[:51],
    "nothing": lambda: b"",
    "longer": lambda: second() + b"\0",
    # the header of a file of level 24, and nothing behind it
    "header": lambda: HEADER.pack(b"AWDB", 2, 24, 0, 417225900, 256, bytes(DIGEST)),
    "third": third,
    "third_cut": lambda: third()[:551],
    "old": lambda: old()[name_of(1)],
    **{f"changed_{place}": partial(changed, place) for place in CHANGED},
}
# what deceives in level 2: the limit, and what is changed
DECEITS = {
    "falling_circle": (12, false_circle),
    "even_circle": (9, lambda body: false_circle(body, 5)),
    "won": (9, lambda body: put_worth(body, 71, WON, 1)),
    "lost": (9, lambda body: put_worth(body, 71, LOST, 1)),
    "limit_8": (8, unchanged),
    "limit_10": (10, unchanged),
    "doubled": (18, doubled),
}
# an entry of level 1 that breaks a rule, by the rank of its board, or a limit that does
BROKEN = {
    "distance_of_an_end": (10, (1, None, 1), 1),
    "plan_of_an_end": (10, (1, 1, 0), 1),
    "plan": (6, (-1, 4, 1), 1),
    "value_below": (11, (-128, None, 0), 1),
    "value_above": (6, (1, 5, 1), 1),
    "distance_0": (6, (-1, 5, 0), 1),
    "distance_2": (6, (-1, 5, 2), 2),
    "greatest_distance": (6, (-1, 5, 0xFFFFFFFF), 0xFFFFFFFF),
    "limit": (6, (-1, 5, 1), 2),
}

FOLDERS = {
    "empty": dict,
    "worked_levels_0_to_2": worked,
    "shown_levels_0_to_1": shown,
    # level 1 has another file, alone and above the right one of level 0
    **{f"gap_{name}": lambda other=other: gap(other()) for name, other in OTHERS.items()},
    **{f"second_{name}": lambda other=other: levels(0, level_01=other()) for name, other in OTHERS.items()},
    "gap_right": lambda: gap(second()),
    # level 1 is over another file, or its first board is worth -2
    "second_over_another": lambda: levels(1, level_01=put(second(), BELOW, bytes(DIGEST))),
    "second_wrong": lambda: levels(1, level_01=put(second(), place_of(0), [LOST])),
    **{f"second_breaks_{name}": partial(broken, *found) for name, found in BROKEN.items()},
    # level 1 begins with another letter or has another limit, or its board of rank 6 has another value or plan,
    # or there is another byte; the digest is the one before
    "second_magic": lambda: altered(0, b"X"),
    **{f"second_limit_{limit}": partial(altered, LIMIT, limit.to_bytes(4, "big")) for limit in LIMITS},
    "second_value_1": lambda: altered(place_of(6), [1]),
    "second_plan_4": lambda: altered(place_of(6) + 1, [4]),
    "second_plan_9": lambda: altered(place_of(6) + 1, [9]),
    **{f"second_{place}_is_{byte}": partial(altered, place, [byte]) for place, byte in PUT},
    **{f"second_old_{place}_is_{byte}": partial(altered, place, [byte], OTHERS["old"]) for place, byte in PUT_OLD},
    "third_53_is_6": lambda: levels(2, level_02=with_bytes(third(), 53, [6])),
    "level_1_as_first": lambda: levels(1, level_00=put(second(), BELOW, bytes(DIGEST))),
    "first_cut": lambda: {name_of(0): b"AWDB"},
    # level 0 has another digest, and level 1 another file
    "first_and_second_wrong": lambda: levels(0, level_00=right(0)[name_of(0)][:-1] + b"\0", level_01=b"no level"),
    "fourth_cut": lambda: levels(2, level_03=b"AWDB"),
    "third_above_a_gap": lambda: levels(0, level_02=b"AWDB"),
    "level_24_above_a_gap": lambda: levels(1, level_24=b""),
    **{f"deceives_{name}": lambda deceit=deceit: deceiving(right(2), *deceit) for name, deceit in DECEITS.items()},
    "old": old,
    **{f"old_{name}": lambda deceit=deceit: deceiving(old(), *deceit) for name, deceit in DECEITS.items()},
    "old_doubled_to_6": lambda: aged(right(6), doubled),
}


def is_folder(name):
    """Whether there is a folder of this name."""
    return name in FOLDERS or RIGHT.fullmatch(name) is not None


@functools.cache
def files_of(name):
    """The files of the folder of this name. Nobody may change them."""
    found = RIGHT.fullmatch(name)
    return right(int(found[1] or 0)) if found else FOLDERS[name]()


def lay(folder, files):
    """Makes a folder of these files."""
    folder.mkdir()
    for name, content in files.items():
        (folder / name).write_bytes(content)
