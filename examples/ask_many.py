#!/usr/bin/env python3
"""Asks many boards of one process, `awari serve`, through pipes.

    python3 examples/ask_many.py levels < boards

prints for each board, of one a line, what `./awari ask` says of it. With --moves it prints what
`./awari moves` says, and an empty line behind that. The service loads the levels of the folder and
verifies them, once; it builds nothing where the folder has a level.

    python3 examples/ask_many.py levels --random 100000 8

asks that many random boards of eight stones instead. How many were answered a second stands on
standard error. With --in-turn a board is asked once the one before it was answered. AWARI names another
program than ./awari.
"""
import argparse
import itertools
import os
import random
import subprocess
import sys
import threading
import time
from pathlib import Path

AWARI = os.environ.get("AWARI") or Path(__file__).resolve().parent.parent / "awari"

# how many questions are sent at once, unless --in-turn is given
BATCH = 1000


def random_board(stones):
    """A board with this many stones, each equally likely: eleven bars among the stones part the pits."""
    bars = sorted(random.sample(range(stones + 11), 11))
    pits = [after - before - 1 for before, after in itertools.pairwise([-1, *bars, stones + 11])]
    return ",".join(map(str, pits[:6])) + "/" + ",".join(map(str, pits[6:]))


def send(service, requests):
    """Sends the questions. The pipe may fill up meanwhile, so the answers are read beside this."""
    for start in range(0, len(requests), BATCH):
        service.stdin.writelines(requests[start : start + BATCH])
        service.stdin.flush()


def line(service):
    read = service.stdout.readline()
    return read or sys.exit("the service has ended")


def answer(service):
    """The lines of the next answer: one, or those of moves or of an end up to the empty line.

    A board is refused by the numbers 1 to 3. Another refusal is the service's own, and the last line.
    """
    lines = [line(service)]
    if lines[0].startswith(b"refused ") and lines[0].split()[1] not in (b"1", b"2", b"3"):
        sys.exit(f"the service has ended: {lines[0].decode().strip()}")
    if lines[0].startswith((b"pit ", b"ended ")):
        while lines[-1] != b"\n":
            lines.append(line(service))
    return lines


def answers_in_turn(service, requests):
    for request in requests:
        send(service, [request])
        yield answer(service)


def answers(service, requests):
    sender = threading.Thread(target=send, args=(service, requests))
    sender.start()
    for _ in requests:
        yield answer(service)
    sender.join()


def words():
    parser = argparse.ArgumentParser(description=__doc__, formatter_class=argparse.RawTextHelpFormatter)
    parser.add_argument("folder", help="the folder with the levels")
    parser.add_argument("--moves", action="store_true", help="ask what each move is worth")
    parser.add_argument("--in-turn", action="store_true", help="one question after the other")
    parser.add_argument("--random", nargs=2, type=int, metavar=("COUNT", "STONES"))
    return parser.parse_args()


def main(given):
    if not Path(given.folder).is_dir():
        sys.exit(f"{given.folder}: no such folder")
    if given.random:
        count, stones = given.random
        boards = [random_board(stones) for _ in range(count)]
    else:
        boards = sys.stdin.read().split()
    word = "moves" if given.moves else "ask"
    requests = [f"{word} {board}\n".encode() for board in boards]
    program = [AWARI, "serve", given.folder, "0", "0"]
    with subprocess.Popen(program, stdin=subprocess.PIPE, stdout=subprocess.PIPE) as service:
        # Once this is answered the levels are loaded. A folder that is refused is told in its place.
        send(service, [b"seen\n"])
        seen = line(service)
        if not seen.startswith(b"seen "):
            sys.exit(seen.decode().rstrip())
        start = time.perf_counter()
        for lines in (answers_in_turn if given.in_turn else answers)(service, requests):
            sys.stdout.buffer.writelines(lines)
        seconds = time.perf_counter() - start
    print(f"{len(boards)} boards, {len(boards) / seconds:.0f} a second", file=sys.stderr)


if __name__ == "__main__":
    main(words())
