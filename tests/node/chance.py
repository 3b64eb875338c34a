"""Asks the program and the one for node the same, of words that are drawn by chance, and compares what they do.

    python3 tests/node/chance.py PROGRAM WRAPPER FOLDER

FOLDER has levels 0 to 8. What the error stream says of words that are not understood is another text: there the first
lines are compared. It prints a line for each difference, and last how many passed and how many failed.
"""
import random
import subprocess
import sys
from pathlib import Path

sys.path.append(str(Path(__file__).resolve().parent.parent))
from common import expect, finish, text

SEED, RUNS, TEXTS = 7, 150, 60
HINT = b"; --unverified answers at once"
NUMBERS = ("0", "1", "5", "9", "24", "25", "+3", "00", "255", "256", "4294967295", "4294967296", "x")
OPTIONS = {
    "ask": ["--json"], "moves": ["--json", "--replies"], "line": ["--json", "--plies", "--longest"],
    "counts": ["--json", "--csv"], "text": ["--boards"], "verify": ["--progress"],
}
# what stands in a text in place of a byte of it
WRONG = (b"0", b"-", b" ", b"\n", b"x", b"\r", b"level 25 limit 0\n", b"0 - 0\n", b"4294967296", b"-129 - 0\n", b"-128 - 0\n", b"")


def board(chance):
    """The text of a board of few stones, or of what is nearly one."""
    pits = [0] * 12
    for _ in range(chance.choice([*range(9)] * 3 + [9, 24, 25, 48, 49, 60])):
        pits[chance.randrange(12)] += 1
    found = text([0] * 6 + pits[6:] if chance.random() < 0.2 else pits)
    at = chance.randrange(len(found))
    return found[:at] + chance.choice("x,/0 é") + found[at + chance.randrange(2) :] if chance.random() < 0.06 else found


def words(chance, folder):
    """The words of a command."""
    command = chance.choice("move judge ask moves line rank board counts text verify judge line".split())
    place, number = chance.choice([folder] * 9 + ["nowhere", str(Path(sys.argv[1]))]), chance.choice(NUMBERS)
    given = {
        "move": [board(chance), number], "judge": [board(chance), number, *(str(chance.randrange(600)) for _ in range(chance.randrange(6)))],
        "rank": [board(chance)], "board": [number, chance.choice(NUMBERS)], "verify": [place], "text": [place, chance.choice("01234x")],
        "counts": [place, *chance.choice([[], ["8"], ["3"], ["9"]])],
    }.get(command, [place, board(chance)])
    return [command, *given, *(option for option in OPTIONS.get(command, ()) if chance.random() < 0.4)]


def did(program, asked, given=b""):
    """The status, the output, and what the error stream says, but for an option that node has not."""
    done = subprocess.run([program, *asked], input=given, stdout=subprocess.PIPE, stderr=subprocess.PIPE, check=False)
    told = done.stderr.partition(b"\n")[0] if done.returncode == 2 else done.stderr.replace(HINT, b"")
    return done.returncode, done.stdout, told


def wrong_text(chance, lines):
    """The first lines of a text, with some bytes changed."""
    found = b"".join(lines[: chance.choice([2, 3, 15, 16, 96, 97, len(lines)])])
    for _ in range(chance.randrange(3)):
        at = chance.randrange(len(found) + 1)
        found = found[:at] + chance.choice(WRONG) + found[at + 1 :]
    return found


def main(program, wrapper, folder):
    chance = random.Random(SEED)
    for _ in range(RUNS):
        asked = words(chance, folder)
        expect(asked, did(wrapper, asked), did(program, asked))
    blocks = [did(program, ["text", folder, str(level)])[1] for level in range(4)]
    lines = b"".join(blocks).splitlines(keepends=True)
    for _ in range(TEXTS):
        given = wrong_text(chance, lines)
        expect(given, did(wrapper, ["check"], given), did(program, ["check"], given))
    finish()


if __name__ == "__main__":
    main(*sys.argv[1:])
