"""Runs the rows of tests/rows on the program in brief for node, as far as it has their words.

    python3 tests/node/rows.py WRAPPER [NAME..]

WRAPPER is a script that runs it. It prints how many rows are left out, a line for each fault, and last how many
passed and how many failed.
"""
import sys
import tempfile
from importlib.machinery import SourceFileLoader
from importlib.util import module_from_spec, spec_from_loader
from pathlib import Path

HERE = Path(__file__).resolve().parent
sys.path[:0] = [str(HERE.parent), str(HERE.parent / "rows")]
from common import expect_that, finish, room_in_memory

COMMANDS = "check move judge build verify text ask moves line rank board counts".split()
# what the program has besides, and a help that this one has not
LACKS = {"--unverified", "--by", "--estimate"}
HINT = b"; --unverified answers at once"


def rows_of_program():
    """The script of the rows, as a module."""
    loader = SourceFileLoader("rows", str(HERE.parent / "rows" / "run"))
    module = module_from_spec(spec_from_loader("rows", loader))
    loader.exec_module(module)
    return module


def is_had(row):
    """Whether the words of a row are for both."""
    words = [word.decode(errors="replace") for word in row.words]
    asked = words[1:] if words[:1] == ["help"] else words
    return not LACKS & set(words) and (not asked or asked[0] in [*COMMANDS, "chek", "nonsense"] or asked[0].startswith("-"))


def main(wrapper, *names):
    rows = rows_of_program()
    rows.PROGRAM = wrapper
    files = [HERE.parent / "rows" / f"{name}.rows" for name in names] or sorted((HERE.parent / "rows").glob("*.rows"))
    found = [row for file in files for row in rows.rows_in(file)]
    had = [row for row in found if is_had(row)]
    for row in had:
        row.lines |= {sign: [line.replace(HINT, b"") for line in lines] for sign, lines in row.lines.items() if sign == "!"}
    print(f"{len(found) - len(had)} rows are of other commands and options")
    with room_in_memory() as room:
        for row in had:
            with tempfile.TemporaryDirectory(dir=room) as place:
                faults = rows.faults_of(row, Path(place))
            expect_that(f"{row.place}: {row.text}", not faults, *faults)
    finish()


if __name__ == "__main__":
    main(*sys.argv[1:])
