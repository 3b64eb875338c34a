#!/usr/bin/env python3
"""Runs the commands of examples/questions.md with a program, and says which answers are others.

    tests/scripts/questions.py PROGRAM [--write]

A command is an indented line that begins with `$ `, and its answer the indented lines behind it. They run in a folder
of their own with levels 0 to 10. With --write the page gets the answers that were given.
"""
import os
import subprocess
import sys
import tempfile
from pathlib import Path

PAGE = Path(__file__).resolve().parents[2] / "examples" / "questions.md"
HIGHEST = "10"
INDENT, COMMAND = "    ", "    $ "


def answered(page, place):
    """The page with the answers that its commands give in this place."""
    lines, is_behind_command = [], False
    for line in page.splitlines():
        is_behind_command = line.startswith(COMMAND) or is_behind_command and line.startswith(INDENT)
        if line.startswith(COMMAND):
            done = subprocess.run(["sh", "-c", line[len(COMMAND):]], cwd=place, capture_output=True, text=True, check=True)
            lines += [line, *(INDENT + it for it in done.stdout.splitlines())]
        elif not is_behind_command:
            lines.append(line)
    return "\n".join(lines) + "\n"


def main():
    program, page = os.path.abspath(sys.argv[1]), PAGE.read_text(encoding="utf-8")
    with tempfile.TemporaryDirectory() as place:
        os.symlink(program, Path(place, "awari"))
        os.mkdir(Path(place, "levels"))
        subprocess.run(["./awari", "build", HIGHEST, "--folder", "levels"], cwd=place, stdout=subprocess.DEVNULL, check=True)
        found = answered(page, place)
    if "--write" in sys.argv:
        PAGE.write_text(found, encoding="utf-8")
        return
    for due, told in zip(page.splitlines(), found.splitlines()):
        if due != told:
            sys.exit(f"the page has {due!r}, and it is {told!r}")
    if found != page:
        sys.exit("the page lacks lines, or has too many")


if __name__ == "__main__":
    main()
