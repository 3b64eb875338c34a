"""Asks the Python module what only a program in Python meets: python.py LEVELS

Six threads ask one object, which refuses none of them. Levels are built, whole and in slices, while threads ask,
and their files are the program's. Refusals go to other processes and come back. Folders,
files and numbers that are wrong are refused with what is wrong, and no call waits for a pipe. What is public has
hints, and its examples run. A wheel and an sdist have what they should. LEVELS is a folder with levels 0 to 5 at
least. It prints each line that is not so, and ends with 0 only if there is none.
"""
import contextlib
import copy
import csv
import doctest
import email
import hashlib
import importlib.util
import inspect
import multiprocessing
import os
import pickle
import re
import shutil
import signal
import struct
import sys
import tarfile
import tempfile
import threading
import time
import typing
import zipfile
from pathlib import Path

TOP = Path(__file__).resolve().parents[2]
sys.path.insert(0, str(TOP / "bindings"))
sys.path.insert(0, str(TOP / "tests" / "library"))
import awari  # noqa: E402
import folders  # noqa: E402
import wheel_of_awari  # noqa: E402

BOARD = [1, 0, 0, 0, 0, 1, 1, 0, 1, 0, 0, 0]
THREADS, TURNS = 6, 20_000
# The levels that are built; the last ones are built while threads ask.
BUILT, ASKED = 8, 7
# A call that waits for ever ends the test.
PATIENCE = 120
WRONG = []


def expect(what, found, wanted):
    if found != wanted:
        WRONG.append(what)
        print(f"{what}: {found!r} in place of {wanted!r}")


def refused(call):
    """The refusal of a call as its text, up to the path; or the error's kind and text."""
    try:
        return call()
    except awari.Refused as fault:
        return str(fault)
    except (TypeError, ValueError, IndexError) as fault:
        return f"{type(fault).__name__} {fault}"


# ---- threads

def try_threads(levels):
    """Look-ups, lines and shares of one object, of which each has to be right."""
    entry, line, moves = levels.entry(BOARD), levels.line(BOARD), levels.moves(BOARD)
    longest, counts = levels.longest(BOARD), levels.counts(4)
    calls = [
        lambda: levels.entry(BOARD) == entry, lambda: levels.line(BOARD) == line, lambda: levels.moves(BOARD) == moves,
        lambda: levels.share().entry(BOARD) == entry, lambda: levels.longest(BOARD) == longest,
        lambda: levels.counts(4) == counts,
    ]
    failed = []

    def ask(call):
        for _ in range(TURNS):
            try:
                if not call():
                    failed.append("another answer")
            except awari.Refused as fault:
                failed.append(str(fault))

    threads = [threading.Thread(target=ask, args=(calls[number % len(calls)],)) for number in range(THREADS)]
    for thread in threads:
        thread.start()
    for thread in threads:
        thread.join()
    expect(f"one object in {THREADS} threads", (len(failed), failed[:1]), (0, []))


# ---- levels that several threads verify

def try_verified(room):
    """Levels 0 to 6, and the same with entries that are wrong: any number of threads says the same."""
    wrong = {
        "none": [], "one": [(8000, 1, 0, 9)], "two": [(12000, 0, 255, 0), (70, 0, 255, 0)],
        "each": [(rank, 24, 255, 0) for rank in range(0, awari.size(6), 7)],
    }
    for name, entries in wrong.items():
        folder = room / f"verified_{name}"
        shutil.copytree(TOP / "examples" / "levels", folder)
        place = folder / folders.name_of(6)
        for entry in entries:
            place.write_bytes(folders.with_entry(place.read_bytes(), *entry))
        said = [refused(lambda: len(awari.Levels(folder, threads=threads))) for threads in (1, 2, 3, 8)]
        expect(f"levels with wrong entries, {name}, by threads", said[1:], said[:1] * 3)
        expect(f"whether they are refused, {name}", isinstance(said[0], str), bool(entries))
    expect("no threads", refused(lambda: awari.Levels(room, threads=0)), "ValueError there is 1 thread or more, and not 0")


# ---- levels that are built

def rows_of_levels():
    """What docs/levels.csv has of each level."""
    with open(TOP / "docs" / "levels.csv", newline="") as table:
        return list(csv.DictReader(table))


def try_built(room, folder):
    """Levels 0 to 8, built whole: their bytes, and what the module says of their files."""
    built = room / "built"
    built.mkdir()
    with awari.Levels.start() as levels:
        for level, row in zip(range(BUILT + 1), rows_of_levels()):
            file, known = levels.build(), folder / f"level_{level:02}.awdb"
            (built / known.name).write_bytes(file)
            expect(f"the digest of level {level}, as it is built", file[-32:].hex(), row["digest"])
            expect(f"and its bytes, {level}", hashlib.sha256(file[:-32]).hexdigest(), row["digest"])
            expect(f"and its file, {level}", not known.exists() or file == known.read_bytes(), True)
            expect(f"how many levels there are, {level}", len(levels), level + 1)
            told = [int(row[name]) for name in ("boards", "won", "even", "lost", "limit")]
            expect(f"the counts of level {level}", list(levels.counts(level)), told)
        entry = levels.entry(BOARD)
    with awari.Levels(built) as levels:
        expect("levels that were built, when they are read", (len(levels), levels.entry(BOARD)), (BUILT + 1, entry))


def sliced(folder, level, boards):
    """A level by slices of about so many boards: what each tells of it, and the digest of its file."""
    with awari.Levels(folder, level - 1) as levels:
        levels.begin()
        drafts = [levels.spread(boards)]
        while not drafts[-1].settled:
            drafts.append(levels.spread(boards))
            expect("how many levels there are meanwhile", len(levels), level)
        return drafts, levels.finish()[-32:].hex()


def try_slices(folder):
    """A level by slices of many sizes: how far it is, and its file."""
    calls = []
    for level, boards in ((6, 1), (6, 5000), (6, 2**70), (4, 9)):
        row, (drafts, digest) = rows_of_levels()[level], sliced(folder, level, boards)
        expect(f"level {level} by slices of {boards}", digest, row["digest"])
        expect("the gains that are opened", sorted({draft.gain for draft in drafts}), [*range(1, level + 1)])
        ordered = all(one.boards <= other.boards and one.gain >= other.gain for one, other in zip(drafts, drafts[1:]))
        expect("whether boards only rise, and gains only fall", ordered, True)
        # a board that is worth 0 is never spread
        expect("how many boards were spread", drafts[-1].boards, int(row["won"]) + int(row["lost"]))
        calls.append(len(drafts))
    expect("whether larger slices are fewer", calls[0] > calls[1] >= calls[2], True)


def finish(levels):
    """Puts the level on that was begun: the digest of its file."""
    while not levels.spread(5000).settled:
        pass
    return levels.finish()[-32:].hex()


def try_refused_drafts(levels):
    """What is not begun or not settled is refused, and no slice is of less than a board."""
    for call in (levels.spread, levels.finish):
        expect("a level that was not begun", refused(call), "59 NotYet")
    levels.begin()
    for boards, wanted in ((0, "ValueError"), (-1, "ValueError"), (1.5, "TypeError")):
        expect(f"a slice of {boards}", str(refused(lambda: levels.spread(boards))).split()[0], wanted)
    levels.spread(5000)
    levels.begin()
    expect("what is begun anew", levels.spread(1).boards, 0)
    expect("a level whose gains are not closed", refused(levels.finish), "59 NotYet")
    expect("a level that was begun is not shared", refused(levels.share().spread), "59 NotYet")


def try_drafts(folder):
    """A level that was begun stays with its object, is put on once, and is given up by `close`."""
    levels = awari.Levels(folder, ASKED - 1)
    shared, digests = levels.share(), [row["digest"] for row in rows_of_levels()]
    try_refused_drafts(levels)
    expect("the level that another builds", shared.build()[-32:].hex(), digests[ASKED])
    expect("how many levels there are of each", (len(shared), len(levels)), (ASKED + 1, ASKED))
    expect("the level that was begun", (finish(levels), len(levels)), (digests[ASKED], ASKED + 1))
    expect("what was put on", (refused(levels.spread), refused(levels.finish)), ("59 NotYet", "59 NotYet"))
    levels.begin()
    draft = levels._draft
    levels.build()
    levels._draft = draft  # as a thread has it that began before the other was through
    expect("what another thread has put on", (refused(lambda: finish(levels)), len(levels)), ("59 NotYet", ASKED + 2))
    levels.begin()
    levels.close()
    expect("a level that was given up", (refused(levels.spread), refused(levels.finish)), ("59 NotYet", "59 NotYet"))
    expect("how many levels there are then", len(levels), 0)


def run_together(calls):
    """Runs each call in a thread of its own, and waits for all."""
    threads = [threading.Thread(target=call) for call in calls]
    for thread in threads:
        thread.start()
    for thread in threads:
        thread.join()


def try_builders(folder):
    """Threads that build at once do so in turn, each a level of its own. Others ask the object meanwhile."""
    levels, digests, wrong = awari.Levels(folder, ASKED - 1), [], []
    entry, rows, gate = levels.entry(BOARD), rows_of_levels()[ASKED : ASKED + 3], threading.Barrier(3)

    def ask():
        while len(levels) < ASKED + 3 and len(digests) + len(wrong) < 3:
            if levels.entry(BOARD) != entry:
                wrong.append("another entry")

    def build():
        gate.wait()
        digests.append(refused(lambda: bytes(levels.build()[-32:]).hex()))

    run_together([build] * 3 + [ask] * THREADS)
    expect("levels of three builders", sorted(digests), sorted(row["digest"] for row in rows))
    expect("what was told meanwhile", (wrong, len(levels)), ([], ASKED + 3))


def try_slices_in_threads(folder):
    """Threads that build one level together, a slice each."""
    told, row = [], rows_of_levels()[ASKED]
    with awari.Levels(folder, ASKED - 1) as levels:
        levels.begin()

        def spread():
            while not told or told[-1] is False:
                told.append(refused(lambda: levels.spread(200).settled))

        run_together([spread] * THREADS)
        expect("slices in threads", ({*told}, levels.finish()[-32:].hex()), ({False, True}, row["digest"]))


def try_closed_builds(folder):
    """An object that another thread closes in the midst of a build has no level from then on."""
    levels = awari.Levels(folder, ASKED - 1)
    spread = levels.spread

    def closed():
        draft = spread()
        run_together([levels.close])
        return draft

    levels.spread = closed
    expect("an object that is closed while it is built", (refused(levels.build), len(levels)), ("59 NotYet", 0))


# ---- refusals

def try_refusals(folder):
    fault = awari.Refused(83, awari._Fault(4, 22, 6, 1075))
    opened = awari.Refused(82, awari._Fault(2), "levels/level_02.awdb")
    for one in (awari.Refused(2), fault, opened):
        for another in (pickle.loads(pickle.dumps(one)), copy.copy(one)):
            told = [(it.number, it.name, it.level, it.inner, it.rule, it.rank, it.path, str(it)) for it in (one, another)]
            expect("a refusal that comes back", told[1], told[0])
    expect("its text", str(fault), "83 Verify level 4: 22 Refused rank 1075 rule V6")
    told = (fault.number, fault.name, fault.level, fault.inner, fault.rule, fault.rank, fault.path)
    expect("its fields", told, (83, "Verify", 4, 22, "V6", 1075, None))
    # want of memory is of no level
    memory = awari.Refused(84, awari._Fault(3))
    expect("want of memory", (str(memory), memory.level), ("84 Memory", None))
    with multiprocessing.get_context("fork").Pool(2) as pool:
        asked = pool.map_async(play_first, [BOARD, [0] * 11 + [1]])
        try:
            found = refused(lambda: asked.get(30))
        except multiprocessing.TimeoutError:
            found = "no answer"
        expect("a refusal in another process", found, "7 Ended")


def play_first(board):
    return awari.play(board, 0)


# ---- folders and files

def try_folders(room, folder):
    for kind in (awari.Levels, awari.Levels.mapped):
        empty = room / "empty"
        empty.mkdir(exist_ok=True)
        expect("no folder", refused(lambda: kind(room / "nowhere")), f"82 Open level 0: {room}/nowhere")
        expect("a folder without levels", refused(lambda: kind(empty)), f"82 Open level 0: {empty} has no level_00.awdb")
        expect("bytes for a folder", refused(lambda: kind(b"levels")), "TypeError a folder is a str or a path, and not b'levels'")
        expect("no number of stones", refused(lambda: kind(folder, -1)), "ValueError the most stones are 0 or more, and not -1")
        expect("more stones than levels have", len(kind(folder, 99)), len(kind(folder)))
    for number, make in enumerate((os.mkfifo, os.mkdir, lambda it: os.symlink("/dev/zero", it), lambda it: os.symlink(it, it))):
        wrong = room / f"wrong_{number}"
        wrong.mkdir()
        for level in range(2):
            shutil.copy(folder / f"level_{level:02}.awdb", wrong)
        make(wrong / "level_02.awdb")
        for kind in (awari.Levels, awari.Levels.mapped):
            expect(f"what is no file, {number}", refused(lambda: kind(wrong)), f"82 Open level 2: {wrong}/level_02.awdb")


def rank(pits):
    return sum(1 for other in range(awari.size(sum(pits))) if board_of(sum(pits), other) < pits)


def board_of(level, number):
    """The board of a rank, by trying: the boards of a level ascend."""
    pits = []
    for pit in range(11):
        for stones in range(level + 1):
            behind = ways(level - stones, 11 - pit)
            if number < behind:
                break
            number -= behind
        pits.append(stones)
        level -= stones
    return [*pits, level]


def ways(stones, pits):
    return awari.comb(stones + pits - 1, pits - 1)


def changed(room, folder, name, board, limit=None, **fields):
    """A folder of its own in which one entry or the limit of a level is another one, with the digest of that."""
    wrong = room / name
    shutil.copytree(folder, wrong)
    path = wrong / f"level_{sum(board):02}.awdb"
    file, at = bytearray(path.read_bytes()), 52 + 6 * rank(board)
    entry = dict(zip(("value", "plan", "distance"), struct.unpack_from(">bBI", file, at)))
    struct.pack_into(">bBI", file, at, *{**entry, **fields}.values())
    if limit is not None:
        struct.pack_into(">I", file, 16, limit)
    file[-32:] = hashlib.sha256(file[:-32]).digest()
    path.write_bytes(file)
    return awari.Levels.mapped(wrong)


def try_wrong_files(room, folder):
    with awari.Levels(folder) as levels, awari.Levels.mapped(folder) as mapped:
        for other in range(0, awari.size(4), 7):
            board = board_of(4, other)
            expect(f"the longest line of {board}", mapped.longest(board), levels.longest(board))
            expect(f"as many plies as the distance, {board}", len(mapped.longest(board)), mapped.entry(board).distance)
            expect(f"the line of {board}", mapped.line(board), levels.line(board))
        for other in range(0, awari.size(len(levels) - 1), 97):
            board = board_of(len(levels) - 1, other)
            expect(f"the moves of {board}", mapped.moves(board), levels.moves(board))
            expect(f"the replies of {board}", mapped.replies(board), levels.replies(board))
        last = (folder / f"level_{len(mapped) - 1:02}.awdb").read_bytes()[-32:].hex()
        expect("the last digest", (mapped.check(last), mapped.check(last.upper()), mapped.check("00" * 32)), (True, True, False))
        mapped.close()
        expect("the digest of what was closed", refused(lambda: mapped.check("00" * 32)), "59 NotYet")
        expect("an entry of what was closed", refused(lambda: mapped.entry(BOARD)), "59 NotYet")
    number, known = rank(BOARD), "83 Verify level 4: 22 Refused rank {} rule {}"
    for name, fields, of_line, of_longest in (
        ("far", {"distance": 4_000_000_000}, None, "V6"), ("near", {"distance": 3}, None, "V6"),
        ("illegal", {"plan": 3}, "V3", "V3"), ("none", {"plan": 255}, "V3", "V3"), ("another", {"plan": 0}, None, "V5"),
        ("more", {"value": 5}, None, "V1"), ("less", {"value": 3}, None, "V4"), ("most", {"value": 100}, None, "V1"),
    ):
        mapped = changed(room, folder, name, BOARD, **fields)
        expect(f"the longest line, {name}", refused(lambda: mapped.longest(BOARD)), known.format(number, of_longest))
        found = refused(lambda: mapped.line(BOARD))
        expect(f"the line, {name}", found if of_line else type(found), known.format(number, of_line) if of_line else awari.Line)
    ended = [0] * 6 + [4] + [0] * 5
    mapped = changed(room, folder, "ended", ended, plan=1)
    expect("a plan where play has ended", refused(lambda: mapped.line(ended)), known.format(rank(ended), "V2"))
    mapped = changed(room, folder, "limit", [0] * 12, limit=2**32 - 1)
    expect("a limit that is too large", refused(lambda: mapped.line(BOARD)), "83 Verify level 0: 22 Refused rank 0 rule V7")


def descriptors():
    return len(os.listdir("/proc/self/fd"))


def try_given_back(room, folder):
    """No file stays open, whether a folder is opened or refused."""
    before = descriptors()
    for place in (folder, room / "wrong_0", room / "far"):
        for kind in (awari.Levels, awari.Levels.mapped):
            with contextlib.suppress(awari.Refused), kind(place):
                pass
    expect("files that stay open", descriptors() - before, 0)


# ---- numbers and words

def try_numbers(levels):
    expect("a level above all", refused(lambda: awari.size(25)), "ValueError a level is a whole number from 0 to 24, and not 25")
    expect("no level", refused(lambda: awari.size(1.0)), "TypeError a level is a whole number from 0 to 24, and not 1.0")
    expect("no pit", refused(lambda: awari.play(BOARD, 1.0)), "TypeError a pit is a whole number from 0 to 5, and not 1.0")
    expect("another pit", [refused(lambda: awari.play(BOARD, pit)) for pit in (6, -1, 2**70)], ["4 NoPit"] * 3)
    expect("pits that hold no such number", [refused(lambda: levels.entry([pit] + [0] * 11)) for pit in (256, -1)], ["2 Number"] * 2)
    expect("too few pits, and too many", [refused(lambda: levels.entry([0] * pits)) for pits in (0, 11, 13)], ["1 Shape"] * 3)
    for pits in ([1.0] * 12, 5, ["0"] * 12):
        expect("no board", refused(lambda: levels.entry(pits)), "TypeError a board is its word, or the twelve whole numbers of its pits")
    ignored, sys.unraisablehook = [], lambda fault: ignored.append(fault.exc_value)
    expect("no folder at all", [refused(kind).split()[0] for kind in (awari.Levels, awari.Levels.mapped)], ["TypeError"] * 2)
    expect("an object that was not made goes in silence", ignored, [])
    sys.unraisablehook = sys.__unraisablehook__
    expect("too many stones", refused(lambda: awari.legal([5] * 12)), "3 TooMany")
    expect("a board above all levels", refused(lambda: levels.entry([25] + [0] * 11)), "59 NotYet")
    expect("the wheel's version", wheel_of_awari.version(), awari.version())
    expect("the sources", awari.source_id(), re.search("^sources (.*)$", (TOP / "release" / "MANIFEST").read_text(), re.MULTILINE)[1])
    expect("the greatest limit", awari._GREATEST_LIMIT, max(int(row["limit"]) for row in rows_of_levels()))
    for name in ("package.json", "rust/Cargo.toml"):
        found = re.search(r'^ *"?version"?\W+([0-9.]+)"', (TOP / "bindings" / name).read_text(), re.MULTILINE)
        expect(f"the version of {name}", found[1], awari.version())


# ---- what is public

def public():
    """Each function and class that is public, and the methods of these, by their names."""
    for name in awari.__all__:
        found = getattr(awari, name)
        if inspect.isfunction(found):
            yield name, found
        if inspect.isclass(found):
            methods = inspect.getmembers(found, lambda it: inspect.isfunction(it) or isinstance(it, property))
            yield from ((f"{name}.{method}", getattr(it, "fget", it)) for method, it in methods if not method.startswith("_"))
            yield f"{name}.__init__", found.__init__


def try_public():
    """Each public call says what it takes and gives, and what it is for, by an example."""
    expect("what is public twice", len(set(awari.__all__)), len(awari.__all__))
    names = {name for name, found in vars(awari).items() if not name.startswith("_") and getattr(found, "__module__", "") == "awari"}
    expect("public names", names - set(awari.__all__), set())
    calls = [(name, call) for name, call in public() if getattr(call, "__module__", "") == "awari"]
    expect("how many public calls there are", len(calls) > 25, True)
    for name, call in calls:
        takes, hints = inspect.signature(call).parameters, typing.get_type_hints(call)
        expect(f"the hints of {name}", set(takes) - {"self"} - set(hints), set())
        expect(f"whether {name} says what it gives", name.endswith("__init__") or "return" in hints, True)
        said = inspect.getdoc(call) or ""
        expect(f"whether {name} says what it is for", bool(said), True)
        expect(f"whether {name} has an example", name.endswith(("__init__", ".close")) or ">>>" in said, True)


def try_examples():
    """The examples of the docstrings, but those of arrays if numpy is not here."""
    before, levels = os.getcwd(), TOP / "examples" / "levels"
    has_numpy = importlib.util.find_spec("numpy")
    needs_numpy = re.compile("probe_many|entries|values|tally|rank_many|boards[(]")
    here = {"levels": awari.Levels(levels), "mapped": awari.Levels.mapped(levels)}
    runner, cases = doctest.DocTestRunner(verbose=False), doctest.DocTestFinder().find(awari, extraglobs=here)
    os.chdir(levels.parent)
    for case in cases:
        if has_numpy or not any(needs_numpy.search(example.source) for example in case.examples):
            runner.run(case)
    os.chdir(before)
    expect("examples that fail", runner.failures, 0)
    expect("how many examples run", runner.tries > 12, True)


# ---- what is packed

def backend_of(folder):
    """What packs the module, as it stands in this folder."""
    spec = importlib.util.spec_from_file_location("packer", folder / "wheel_of_awari.py")
    packer = importlib.util.module_from_spec(spec)
    spec.loader.exec_module(packer)
    return packer


def try_packed(room):
    """A wheel has the module, its library and the mark that it is typed; an sdist gives the same wheel."""
    wheel = room / wheel_of_awari.build_wheel(room)
    about = f"awari-{awari.__version__}"
    with zipfile.ZipFile(wheel) as files:
        packed = {name: files.read(name) for name in files.namelist()}
    info = {f"{about}.dist-info/{name}" for name in ("METADATA", "WHEEL", "RECORD", "licenses/LICENSE")}
    expect("what is packed", set(packed), info | {f"awari/{name}" for name in ("__init__.py", "py.typed", "libawari.so.0")})
    expect("the module that is packed", packed["awari/__init__.py"], (TOP / "bindings/awari.py").read_bytes())
    said = email.message_from_bytes(packed[f"{about}.dist-info/METADATA"])
    found = said["Name"], said["Version"], "Typing :: Typed" in said.get_all("Classifier")
    expect("what is said of it", found, ("awari", awari.__version__, True))
    (room / about).mkdir()
    (room / "again").mkdir()
    with tarfile.open(room / wheel_of_awari.build_sdist(room)) as sdist:
        for member in sdist.getmembers():
            (room / member.name).parent.mkdir(exist_ok=True)
            (room / member.name).write_bytes(sdist.extractfile(member).read())
    packer = backend_of(room / about)
    expect("the wheel of an sdist", (room / "again" / packer.build_wheel(room / "again")).read_bytes(), wheel.read_bytes())
    with zipfile.ZipFile(room / "again" / packer.build_editable(room / "again")) as files:
        place = Path(files.read("awari.pth").decode().rstrip("\n"))
    module = place / "awari" / "__init__.py"
    expect("the module that is edited", (module.resolve(), (place / "awari" / "py.typed").exists()), (room / about / "awari.py", True))
    expect("its library", (place / "awari" / "libawari.so.0").read_bytes(), packed["awari/libawari.so.0"])


def try_project():
    """What is read of pyproject.toml is what a reader of TOML finds, if one is here."""
    if importlib.util.find_spec("tomllib") is None:
        return
    import tomllib

    table = tomllib.loads((TOP / "bindings/pyproject.toml").read_text())["project"]
    words, classifiers = wheel_of_awari.project()
    expect("the words of [project]", words, {key: value for key, value in table.items() if isinstance(value, str)})
    expect("its classifiers", classifiers, table["classifiers"])


def try_numpy(folder):
    """Arrays can't be written, and take no broken numbers."""
    try:
        import numpy
    except ImportError:
        print("arrays: not tried, since numpy is not here")
        return
    levels, mapped = awari.Levels(folder), awari.Levels.mapped(folder)
    for array in (mapped.values(4), mapped.entries(4)):
        expect("an array over a file is written", array.flags.writeable, False)
        expect("and not by a flag", refused(lambda: array.setflags(write=True)).split()[0], "ValueError")
    expect("ranks that are no whole numbers", refused(lambda: awari.boards(3, [1.7])), "TypeError ranks are whole numbers, and not float64")
    expect("ranks as words", refused(lambda: awari.boards(3, ["1"])).split(", and")[0], "TypeError ranks are whole numbers")
    expect("no rank and no board", (len(awari.boards(3, [])), len(levels.probe_many([])), len(mapped.probe_many([]))), (0, 0, 0))
    boards = numpy.tile(awari.boards(5, numpy.arange(awari.size(5))), (20, 1))
    failed, wanted = [], levels.probe_many(boards)

    def ask(call):
        end = time.monotonic() + 1
        while time.monotonic() < end:
            try:
                if not call():
                    failed.append("another answer")
            except awari.Refused as fault:
                failed.append(str(fault))

    calls = [lambda: (levels.probe_many(boards) == wanted).all(), lambda: levels.entry(boards[7]).value == wanted["value"][7]]
    threads = [threading.Thread(target=ask, args=(calls[number % 2],)) for number in range(THREADS)]
    for thread in threads:
        thread.start()
    for thread in threads:
        thread.join()
    expect("arrays of one object in threads", (len(failed), failed[:1]), (0, []))


def main(folder):
    signal.alarm(PATIENCE)
    with tempfile.TemporaryDirectory() as name:
        try_refusals(folder)
        with awari.Levels(folder) as levels:
            try_threads(levels)
            try_numbers(levels)
        try_verified(Path(name))
        try_built(Path(name), folder)
        try_slices(folder)
        for attempt in (try_drafts, try_builders, try_slices_in_threads, try_closed_builds):
            attempt(folder)
        try_folders(Path(name), folder)
        try_wrong_files(Path(name), folder)
        try_given_back(Path(name), folder)
        try_public()
        try_examples()
        try_packed(Path(name).resolve())
        try_project()
        try_numpy(folder)
    return 1 if WRONG else 0


if __name__ == "__main__":
    sys.dont_write_bytecode = True
    sys.exit(main(Path(sys.argv[1])))
