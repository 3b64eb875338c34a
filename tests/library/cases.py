"""Asks each row of cases.rows in Python: cases.py ROOM

ROOM has the folders that folders.py makes. A board is asked by its word and by its pits, of the levels verified
and mapped. Without numpy, the calls that want it are left out. It prints each row whose answer is another
one, and ends with `N passed, M failed`.
"""
import functools
import hashlib
import importlib.util
import signal
import sys
from pathlib import Path

sys.path.append(str(Path(__file__).resolve().parents[2] / "bindings"))
import awari
from answers import cases
from common import expect, finish, text

# A call that waits for ever ends the test.
PATIENCE = 300
HAS_NUMPY = importlib.util.find_spec("numpy") is not None


def pits_of(word):
    """The board as the twelve numbers of its pits, if its word has a number for each."""
    pits = word.replace("/", ",").split(",")
    return [int(pit) for pit in pits] if len(pits) == 12 and all(pit.isdecimal() and pit.isascii() for pit in pits) else None


# ---- what is told, as the table has it

def words(numbers):
    return " ".join(map(str, numbers))


def rows(found):
    return "; ".join(map(words, found)) or "none"


def shown(entry):
    return words((entry.value, "-" if entry.plan is None else entry.plan, entry.distance))


def lined(line):
    return f"{words(line.moves) or 'none'} outcome {line.outcome}"


def named(after, captures):
    return f"{text(after)} {captures}"


def counted(counts):
    return words((counts.won, counts.even, counts.lost, counts.limit))


def checked(levels):
    """Whether the files end in their digest, and in no other."""
    last = bytes(levels._maps[-1])[-32:].hex() if len(levels) else ""
    found = levels.check(last), levels.check("00" * 32)
    return "right" if found == (True, False) else f"check says {found}"


def valued(levels, board):
    """The entry, if the value alone is the same."""
    entry, value = levels.entry(board), levels.value(board)
    return shown(entry) if value == entry.value else f"value says {value}"


def built(levels):
    """The level that is built over these, which stay as they are, and the digest in which its file ends."""
    with levels.share() as own:
        level, file = len(own), own.build()
        right = len(own) == level + 1 and len(levels) == level and hashlib.sha256(file[:-32]).digest() == file[-32:]
        return f"{level} {file[-32:].hex()}" if right else "a file with another digest"


def count_of(opened):
    """How many levels there are in what is opened."""
    with opened as levels:
        return str(len(levels))


def told(call):
    """What the call tells, as a text; also why it is refused, without the path."""
    try:
        return call()
    except awari.Refused as refusal:
        return str(refusal).removesuffix(f": {refusal.path}")
    except (TypeError, IndexError, ValueError) as fault:
        return {TypeError: "TypeError", IndexError: "93 NoRank", ValueError: "59 NotYet"}[type(fault)]


# ---- the calls

OF_LEVELS = {
    "entry": valued,
    "moves": lambda levels, board: rows(levels.moves(board)),
    "line": lambda levels, board: lined(levels.line(board)),
    "longest": lambda levels, board: words(levels.longest(board)) or "none",
    "replies": lambda levels, board: rows(levels.replies(board)),
    "counts": lambda levels, level: counted(levels.counts(int(level))),
}
OF_VERIFIED = {"build": built}
OF_FILES = {"check": checked, "limit": lambda levels, level: str(levels.limit(int(level)))}
OF_NONE = {
    "play": lambda board, pit: named(*awari.play(board, int(pit))),
    "legal": lambda board: words(awari.legal(board)) or "none",
    "size": lambda level: str(awari.size(int(level)) if int(level) < 25 else 0),
    "sentence": lambda number: awari.Refused(int(number)).sentence,
    "rank": lambda board: words(int(number[0]) for number in awari.rank_many([board])),
    "board": lambda level, number: text(awari.boards(int(level), [int(number)])[0].tolist()),
}
ARRAYS = {"rank", "board"}


@functools.cache
def objects(room, place):
    """The levels of a folder, verified and mapped, as far as they open."""
    if place in ("shared", "closed"):
        with awari.Levels(room / "levels") as levels, awari.Levels.mapped(room / "levels") as mapped:
            return [levels.share()] if place == "shared" else [levels, mapped]
    found = []
    for kind in (awari.Levels, awari.Levels.mapped):
        try:
            found.append(kind(room / place))
        except awari.Refused:
            pass
    return found


def boards(case):
    """The words of the case, and the same with its board as pits, if it has one."""
    yield [None if word == "NULL" else word.strip("'") for word in case.words]
    pits = pits_of(case.words[0])
    if pits and case.answer[:2] not in ("1 ", "2 "):
        yield [pits, *case.words[1:]]


def opened(room, case):
    """What is told of a folder that is opened."""
    kind = awari.Levels if case.call == "open" else awari.Levels.mapped
    return told(lambda: count_of(kind(None if case.place == "NULL" else room / case.place, *map(int, case.words))))


def answers(room, case):
    """What each call tells that answers the case."""
    if case.call in ("open", "map"):
        return [opened(room, case)]
    for calls, kind in ((OF_FILES, awari.Mapped), (OF_VERIFIED, awari.Levels)):
        if case.call in calls:
            asked = [one for one in objects(room, case.place) if isinstance(one, kind)]
            return [told(lambda: calls[case.call](one, *case.words)) for one in asked]
    if case.call in OF_LEVELS:
        wants_numpy = awari.Mapped if case.call == "counts" else ()
        asked = [one for one in objects(room, case.place) if HAS_NUMPY or not isinstance(one, wants_numpy)]
        return [told(lambda: OF_LEVELS[case.call](one, *given)) for one in asked for given in boards(case)]
    # what takes an array of boards takes no words
    given = [found for found in boards(case) if case.call != "rank" or isinstance(found[0], list)]
    return [told(lambda: OF_NONE[case.call](*found)) for found in given if case.call in OF_NONE]


def main(room):
    signal.alarm(PATIENCE)
    for case in cases():
        if case.call not in ARRAYS or HAS_NUMPY:
            for answer in answers(room, case):
                expect(case.row, answer, case.answer)
    finish()


if __name__ == "__main__":
    main(Path(sys.argv[1]))
