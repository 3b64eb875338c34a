"""Awari's endgame levels, by the library of awari.h: `pip install ./bindings`.

    >>> from awari import Levels
    >>> with Levels("levels") as levels:
    ...     levels.entry("1,0,0,0,0,0/0,0,1,0,0,0")
    Entry(value=2, plan=0, distance=8)

A board is its word, or the twelve numbers of its pits. `Levels` reads a folder and verifies each level,
so what it says is right. It builds the next level too. `Levels.mapped` maps the files and verifies nothing. Its
answers are the truth if `awari verify` says yes to these files, or if their last digest is one that you trust.
A refusal is a `Refused`, with the number and the name of docs/FORMATS.md.

Any number of threads may ask one object, of either kind. In an interpreter without a global lock give each
thread a `share` of its own.

The calls that give or take arrays need numpy. The rest needs nothing. The examples ask a folder with levels 0 to 6,
where `levels` is `Levels("levels")`, and `mapped` is `Levels.mapped("levels")`.
"""
from __future__ import annotations

import ctypes
import mmap
import operator
import os
import stat
import threading
from math import comb
from pathlib import Path
from struct import Struct
from typing import TYPE_CHECKING, Any, Iterator, NamedTuple, Sequence, TypeVar, Union

if TYPE_CHECKING:
    from numpy.typing import ArrayLike, NDArray

    _Array = NDArray[Any]
else:
    # Only the calls that need numpy load it.
    ArrayLike = _Array = Any

__all__ = [
    "HIGHEST_LEVEL", "NAMES", "NO_PLAN", "PITS", "Board", "Counts", "Draft", "Entry", "Levels", "Line", "Mapped",
    "Move", "Refused", "Replies", "Tally", "boards", "legal", "play", "rank_many", "size", "source_id",
    "version",
]

HIGHEST_LEVEL = 24
_LEVELS_ARE = f"a level is a whole number from 0 to {HIGHEST_LEVEL}"
PITS = 12
NO_PLAN = 255
NAMES = {
    1: "Shape", 2: "Number", 3: "TooMany", 4: "NoPit", 5: "EmptyPit", 6: "MustFeed", 7: "Ended",
    20: "WrongLevel", 21: "WrongSize", 22: "Refused", 51: "TooHigh", 53: "Memory", 59: "NotYet", 60: "Truncated",
    61: "Magic", 62: "Version", 63: "LevelOutOfRange", 64: "Count", 65: "EntryForm", 66: "Digest", 67: "Trailing",
    68: "Read", 70: "Write", 80: "Below", 81: "File", 82: "Open", 83: "Verify", 84: "Memory", 86: "Old",
}

Board = Union[str, Sequence[int], _Array]
_Folder = Union[str, "os.PathLike[str]"]
_Kind = TypeVar("_Kind", bound="_Answers")


class Entry(NamedTuple):
    """What the levels say of a board."""

    value: int
    plan: int | None
    distance: int


class Move(NamedTuple):
    """What a legal pit is worth."""

    pit: int
    captures: int
    value: int
    distance: int


class Replies(NamedTuple):
    """How many replies a legal pit leaves, and how many of them keep what the board is worth then."""

    pit: int
    replies: int
    keep: int


class Line(NamedTuple):
    """A play by the plans of both sides."""

    moves: list[int]
    outcome: int


class Counts(NamedTuple):
    """What the boards of a level come to: how many are won, even and lost for the mover, and the greatest distance."""

    boards: int
    won: int
    even: int
    lost: int
    limit: int


class Tally(NamedTuple):
    """How many boards of a level have each value, and each distance."""

    values: dict[int, int]
    distances: dict[int, int]


class Draft(NamedTuple):
    """How far a level is that was begun.

    `boards` of it are settled and were spread. `gain` is open, or one more than the level if none was opened yet. All
    gains are closed if it is `settled`.
    """

    boards: int
    gain: int
    settled: bool


class Refused(Exception):
    """A refusal: its number and name, and those of the fault inside it, if there is one.

    With 82 the `path` is what does not open: the folder, or a file of it.

    >>> try:
    ...     levels.entry("1,2,3")
    ... except Refused as refusal:
    ...     print(refusal.number, refusal.name)
    1 Shape
    """

    def __init__(self, number: int, fault: _Fault | None = None, path: str | None = None):
        self.number, self.name, self.path, self._fault = number, NAMES[number], path, fault
        self.level = fault.level if fault and number != 84 else None
        self.inner = fault.inner if fault and fault.inner else None
        self.rule = f"V{fault.rule}" if fault and fault.rule else None
        self.rank = fault.rank if fault and fault.rule else None
        super().__init__(self._text())

    def __reduce__(self) -> tuple[type[Refused], tuple[int, _Fault | None, str | None]]:
        # An exception is made anew of its text, which is no number.
        return Refused, (self.number, self._fault, self.path)

    @property
    def sentence(self) -> str:
        """What the refusal means, for a person.

        >>> Refused(3).sentence
        'A board has at most 48 stones'
        """
        found = _Sentence()
        _awari.awari_text_of(self.number, ctypes.addressof(found))
        text: bytes = found.text
        return text.decode()

    def _text(self) -> str:
        text = f"{self.number} {self.name}"
        if self.level is not None:
            text += f" level {self.level}"
        if self.inner is not None:
            text += f": {self.inner} {NAMES[self.inner]}"
        if self.rule is not None:
            text += f" rank {self.rank} rule {self.rule}"
        return text if self.path is None else f"{text}: {self.path}"


class _Handle(ctypes.Structure):
    _fields_ = [("at", ctypes.c_void_p), ("open", ctypes.c_bool)]


class _Fault(ctypes.Structure):
    _fields_ = [("level", ctypes.c_uint8), ("inner", ctypes.c_uint8), ("rule", ctypes.c_uint8), ("rank", ctypes.c_uint32)]


class _File(ctypes.Structure):
    _fields_ = [("bytes", ctypes.c_void_p), ("len", ctypes.c_size_t)]


class _Sentence(ctypes.Structure):
    _fields_ = [("text", ctypes.c_char_p), ("size", ctypes.c_size_t)]


_ENTRY = Struct("=bBxxI")
_MOVE = Struct("=?BhI")
_DRAFT = Struct("=QB?6x")
_COUNTS = Struct("=IIII")
_HEADER_BYTES = 52
_ENTRY_BYTES = 6
_DIGEST_BYTES = 32
# A slice of this many boards takes some 20 milliseconds.
_SLICE = 100_000
_LIMIT = Struct(">16xI")
# A level is verified in this many parts, and below this one by one thread.
_PARTS, _FIRST_SHARED = 1601, 5
# No level has a greater limit: docs/levels.csv.
_GREATEST_LIMIT = 194


class _Scratch(threading.local):
    """Where calls of one thread read and write. A call of the library takes addresses."""

    def __init__(self) -> None:
        self.pits, self.after = ctypes.create_string_buffer(PITS), ctypes.create_string_buffer(PITS)
        self.entry, self.moves = ctypes.create_string_buffer(_ENTRY.size), ctypes.create_string_buffer(6 * _MOVE.size)
        self.byte, self.size, self.rank = ctypes.c_uint8(), ctypes.c_size_t(), ctypes.c_uint32()
        self.pits_at, self.after_at = ctypes.addressof(self.pits), ctypes.addressof(self.after)
        self.entry_at, self.moves_at = ctypes.addressof(self.entry), ctypes.addressof(self.moves)
        self.byte_at, self.size_at = ctypes.addressof(self.byte), ctypes.addressof(self.size)
        self.rank_at = ctypes.addressof(self.rank)


_AT, _SIZE, _BYTE = ctypes.c_void_p, ctypes.c_size_t, ctypes.c_uint8
_CALLS: dict[str, tuple[Any, list[Any]]] = {
    "awari_version": (ctypes.c_uint32, []),
    "awari_source_text": (None, [_AT]),
    "awari_text_of": (None, [_BYTE, _AT]),
    "awari_parse": (_BYTE, [ctypes.c_char_p, _SIZE, _AT]),
    "awari_legal": (_BYTE, [_AT]),
    "awari_play": (_BYTE, [_AT, _BYTE, _AT, _AT]),
    "awari_rank": (_BYTE, [_AT, _AT, _AT]),
    "awari_levels": (_BYTE, [_AT]),
    "awari_probe": (_BYTE, [_AT, _AT, _AT]),
    "awari_probe_value": (_BYTE, [_AT, _AT, _AT]),
    "awari_probe_moves": (_BYTE, [_AT, _AT, _AT]),
    "awari_line": (_BYTE, [_AT, _AT, _AT, _SIZE, _AT]),
    "awari_longest_line": (_BYTE, [_AT, _AT, _AT, _SIZE, _AT]),
    "awari_share_with": (_BYTE, [_AT, _AT]),
    "awari_close": (None, [_AT]),
    "awari_probe_file": (_BYTE, [_AT, _SIZE, _AT, _AT]),
    "awari_probe_moves_files": (_BYTE, [_AT, _SIZE, _AT, _AT]),
}
_LONG_CALLS: dict[str, tuple[Any, list[Any]]] = {
    "awari_add_level": (_BYTE, [_AT, _AT, _SIZE, _AT]),
    "awari_probe_many": (_BYTE, [_AT, _AT, _SIZE, _AT, _SIZE, _AT]),
    "awari_counts": (_BYTE, [_AT, _BYTE, _AT]),
    "awari_begin": (_BYTE, [_AT]),
    "awari_spread": (_BYTE, [_AT, _SIZE, _AT]),
    "awari_finish": (_BYTE, [_AT, _AT, _SIZE]),
    "awari_check_file": (_BYTE, [_AT, _SIZE, _AT, _AT]),
}
# The library of portable/ has a memory for each handle, so it has no such calls, and one thread verifies.
_CALLS_IN_PARTS: dict[str, tuple[Any, list[Any]]] = {
    "awari_read_level": (_BYTE, [_AT, _AT, _SIZE, _AT]),
    "awari_look": (_BYTE, [_AT, ctypes.c_uint32]),
    "awari_join_with": (_BYTE, [_AT, _AT]),
    "awari_accept": (_BYTE, [_AT, _AT]),
}


def _library() -> tuple[ctypes.PyDLL, ctypes.CDLL]:
    """The short calls and the long ones, of the library that the environment's LIBAWARI names, or that lies beside this file, or on the system's path.

    A handle is for one call at a time. A short call keeps the interpreter's lock, so no thread comes between. A
    long one leaves it to other threads, and has a handle that no other thread knows.
    """
    # An editable installation links to this file, and has a library of its own.
    here = Path(__file__).resolve().parent, Path(__file__).parent
    files = [place / name for place in here for name in ("libawari.so.0", "libawari.so")]
    beside = [str(file) for file in files if file.exists()]
    path = os.environ.get("LIBAWARI") or [*beside, "libawari.so.0"][0]
    try:
        short, long = ctypes.PyDLL(path), ctypes.CDLL(path)
    except OSError as error:
        raise ImportError(
            f"{error}: `pip install ./bindings` packs libawari.so.0 with this module, `bindings/make` puts it beside "
            "it, and the environment's LIBAWARI may name it"
        ) from None
    _declare(short, _CALLS, path)
    _declare(long, _LONG_CALLS, path)
    if hasattr(long, "awari_accept"):
        _declare(long, _CALLS_IN_PARTS, path)
    return short, long


def _declare(library: ctypes.CDLL, calls: dict[str, tuple[Any, list[Any]]], path: str) -> None:
    """Says what the calls give and take."""
    for name, (gives, takes) in calls.items():
        try:
            function = getattr(library, name)
        except AttributeError:
            raise ImportError(f"{path} has no {name}: it is of another version than this module") from None
        function.restype, function.argtypes = gives, takes


_awari, _awari_long = _library()
_parse, _probe, _probe_moves, _probe_file = (
    _awari.awari_parse, _awari.awari_probe, _awari.awari_probe_moves, _awari.awari_probe_file,
)
_scratch = _Scratch()
_SOME_BYTE = ctypes.c_uint8()


def version() -> str:
    """The version of the library.

    >>> version() == __version__
    True
    """
    number = _awari.awari_version()
    return f"{number // 10000}.{number // 100 % 100}.{number % 100}"


# The module and its library come together.
__version__ = version()


def source_id() -> str:
    """The digest of the sources that the library was made of, in hexadecimal.

    >>> len(source_id())
    64
    """
    found = _Sentence()
    _awari.awari_source_text(ctypes.addressof(found))
    text: bytes = found.text
    return text.decode()


def _read(board: Board, pits: ctypes.Array[ctypes.c_char], at: int) -> None:
    """Writes the board's twelve pits there. That they are at most 48 stones, the library sees to."""
    if isinstance(board, str):
        word = board.encode("utf-8", "surrogatepass")
        answer = _parse(word, len(word), at)
        if answer:
            raise Refused(answer)
        return
    try:
        stones = bytes(list(board))
    except ValueError:
        raise Refused(2) from None
    except TypeError:
        raise TypeError("a board is its word, or the twelve whole numbers of its pits") from None
    if len(stones) != PITS:
        raise Refused(1)
    pits.raw = stones


def _expect(answer: int, fault: _Fault | None = None) -> None:
    if answer:
        raise Refused(answer, fault)


def play(board: Board, pit: int) -> tuple[list[int], int]:
    """The board after a move, as the other player sees it, and the stones captured.

    >>> play("0,0,0,0,0,1/1,0,1,0,0,0", 5)
    ([0, 0, 1, 0, 0, 0, 0, 0, 0, 0, 0, 0], 2)
    """
    at = _scratch
    pit = _whole(pit, "a pit is a whole number from 0 to 5")
    _read(board, at.pits, at.pits_at)
    _expect(_awari.awari_play(at.pits_at, pit if 0 <= pit <= 255 else 255, at.after_at, at.byte_at))
    return list(at.after.raw), at.byte.value


def legal(board: Board) -> list[int]:
    """The pits that can be played, ascending.

    >>> legal("1,0,0,0,0,1/1,0,1,0,0,0")
    [0, 5]
    """
    at = _scratch
    _read(board, at.pits, at.pits_at)
    if sum(at.pits.raw) > 48:
        raise Refused(3)
    bits = _awari.awari_legal(at.pits_at)
    return [pit for pit in range(PITS // 2) if bits >> pit & 1]


def size(level: int) -> int:
    """How many boards a level has.

    >>> size(12)
    1352078
    """
    if not 0 <= _whole(level, _LEVELS_ARE) <= HIGHEST_LEVEL:
        raise ValueError(f"{_LEVELS_ARE}, and not {level}")
    return comb(level + PITS - 1, PITS - 1)


def _whole(number: Any, what: str) -> int:
    """The number, which has to be a whole one."""
    try:
        return operator.index(number)
    except TypeError:
        raise TypeError(f"{what}, and not {number!r}") from None


class _Answers:
    """What levels are asked for, wherever they lie."""

    def __len__(self) -> int:
        """How many levels there are."""
        raise NotImplementedError

    def entry(self, board: Board) -> Entry:
        """What the levels say of a board.

        >>> levels.entry([1, 0, 0, 0, 0, 1, 1, 0, 1, 0, 0, 0])
        Entry(value=4, plan=5, distance=1)
        """
        raise NotImplementedError

    def value(self, board: Board) -> int:
        """The value of a board alone.

        >>> levels.value("1,0,0,0,0,0/0,0,1,0,0,0")
        2
        """
        return self.entry(board).value

    def moves(self, board: Board) -> list[Move]:
        """What each legal pit is worth, ascending; none if the play has ended.

        >>> for move in levels.moves("1,0,0,0,0,1/1,0,1,0,0,0"):
        ...     print(move)
        Move(pit=0, captures=0, value=-4, distance=13)
        Move(pit=5, captures=2, value=4, distance=1)
        """
        raise NotImplementedError

    def line(self, board: Board) -> Line:
        """The play by the plans of both sides, to its first outcome by the limit of the levels up to the board's.

        >>> levels.line("1,0,0,0,0,0/0,0,1,0,0,0")
        Line(moves=[0, 2, 1, 3, 2, 4, 3, 5], outcome=2)
        """
        raise NotImplementedError

    def replies(self, board: Board) -> list[Replies]:
        """How many replies each legal pit leaves, and how many of them keep what the board is worth then.

        >>> levels.replies("1,0,0,0,0,1/1,0,1,0,0,0")
        [Replies(pit=0, replies=2, keep=1), Replies(pit=5, replies=1, keep=1)]
        """
        found = []
        for move in self.moves(board):
            after, _ = play(board, move.pit)
            value, replies = self.entry(after).value, self.moves(after)
            found.append(Replies(move.pit, len(replies), sum(reply.value == value for reply in replies)))
        return found

    def longest(self, board: Board) -> list[int]:
        """The play in which the losing side holds out, to the first capture or the end: as many plies as the distance.

        >>> levels.longest("1,0,0,0,0,0/0,0,1,0,0,0")
        [0, 2, 1, 3, 2, 4, 3, 5]
        """
        raise NotImplementedError

    def counts(self, level: int) -> Counts:
        """What the boards of a level come to. Of mapped files it wants numpy, and the limit is what the file says.

        >>> levels.counts(1)
        Counts(boards=12, won=5, even=0, lost=7, limit=1)
        """
        raise NotImplementedError

    def __enter__(self: _Kind) -> _Kind:
        return self

    def __exit__(self, *_: object) -> None:
        self.close()

    def __del__(self) -> None:
        self.close()

    def close(self) -> None:
        """Gives back what the levels take. Each board is refused as 59 from then on."""
        raise NotImplementedError


def _add(handle: _Handle, file: _File, threads: int, fault: _Fault) -> None:
    """Puts the next level on, verified by so many threads, of which this is one."""
    at, fault_at = ctypes.addressof(handle), ctypes.addressof(fault)
    if threads == 1 or not hasattr(_awari_long, "awari_accept"):
        _expect(_awari_long.awari_add_level(at, file.bytes, file.len, fault_at), fault)
        return
    _expect(_awari_long.awari_read_level(at, file.bytes, file.len, fault_at), fault)
    parts, turn = iter(range(_PARTS)), threading.Lock()
    helpers = [_helper(at, parts, turn) for _ in range(threads - 1)]
    try:
        _look(handle, parts, turn)
    finally:
        for helper in helpers:
            _join(helper, at)
    # It looks at what the threads left out.
    _expect(_awari_long.awari_accept(at, fault_at), fault)


def _helper(at: int, parts: Iterator[int], turn: threading.Lock) -> tuple[_Handle, threading.Thread | None]:
    """A handle over the level that was read, and a thread that looks at parts by it, if one can be started."""
    own = _Handle()
    if _awari.awari_share_with(at, ctypes.addressof(own)):
        return own, None
    thread = threading.Thread(target=_look, args=(own, parts, turn))
    try:
        thread.start()
    except RuntimeError:
        return own, None
    return own, thread


def _join(helper: tuple[_Handle, threading.Thread | None], at: int) -> None:
    """Waits for a helper, and takes over what it looked at."""
    own, thread = helper
    if thread:
        thread.join()
        _awari_long.awari_join_with(ctypes.addressof(own), at)
    _awari.awari_close(ctypes.addressof(own))


def _look(handle: _Handle, parts: Iterator[int], turn: threading.Lock) -> None:
    """Takes parts in turn, and looks at each, until none is left."""
    while True:
        with turn:
            part = next(parts, None)
        if part is None:
            return
        _awari_long.awari_look(ctypes.addressof(handle), part)


class Levels(_Answers):
    """The levels of a folder, each verified: level 0 up to the first whose file is not there.

    With `most`, levels of more stones are not read. With `threads`, as many threads verify them. A folder without
    level 0 is refused as 82. Any number of threads may ask at once, also while one of them builds the next level.

    >>> len(Levels("levels", most=4))
    5
    >>> len(Levels("levels", threads=4))
    7
    """

    _at: int | None = None
    _draft: Levels | None = None

    def __init__(self, folder: _Folder, most: int = HIGHEST_LEVEL, threads: int = 1):
        threads = _whole(threads, "the threads are a whole number")
        if threads < 1:
            raise ValueError(f"there is 1 thread or more, and not {threads}")
        with Mapped(folder, most) as files:
            handle, fault = _Handle(), _Fault()
            try:
                for level, file in enumerate(files._files):
                    _add(handle, file, threads if level >= _FIRST_SHARED else 1, fault)
            except BaseException:
                _awari.awari_close(ctypes.addressof(handle))
                raise
        self._hold(handle)

    def _hold(self, handle: _Handle) -> None:
        self._handle, self._at = handle, ctypes.addressof(handle)
        # The first is held for a moment, while levels come or go; the second for long calls, up to a whole build.
        self._change, self._turn = threading.RLock(), threading.Lock()

    @staticmethod
    def _of(handle: _Handle) -> Levels:
        levels = Levels.__new__(Levels)
        levels._hold(handle)
        return levels

    @staticmethod
    def start() -> Levels:
        """No level yet. `build` puts level 0 on, and so on.

        >>> with Levels.start() as built:
        ...     files = [built.build() for level in range(3)]
        ...     built.entry("1,0,0,0,0,0/0,0,1,0,0,0").distance
        8
        """
        return Levels._of(_Handle())

    @staticmethod
    def mapped(folder: _Folder, most: int = HIGHEST_LEVEL) -> Mapped:
        """The levels of a folder in their files, where they lie. Nothing is loaded, and nothing is verified.

        >>> with Levels.mapped("levels") as mapped:
        ...     mapped.entry("1,0,0,0,0,1/1,0,1,0,0,0")
        Entry(value=4, plan=5, distance=1)
        """
        return Mapped(folder, most)

    def __len__(self) -> int:
        return int(_awari.awari_levels(self._at))

    def entry(self, board: Board) -> Entry:
        at = _scratch
        _read(board, at.pits, at.pits_at)
        return _entry(_probe(self._at, at.pits_at, at.entry_at), at.entry)

    def value(self, board: Board) -> int:
        at = _scratch
        _read(board, at.pits, at.pits_at)
        _expect(_awari.awari_probe_value(self._at, at.pits_at, at.entry_at))
        return int.from_bytes(at.entry.raw[:1], "little", signed=True)

    def moves(self, board: Board) -> list[Move]:
        at = _scratch
        _read(board, at.pits, at.pits_at)
        _expect(_probe_moves(self._at, at.pits_at, at.moves_at))
        return _moves(at.moves)

    def line(self, board: Board) -> Line:
        at = _scratch
        _read(board, at.pits, at.pits_at)
        value = self.value(list(at.pits.raw))
        return Line(self._line(_awari.awari_line), value)

    def longest(self, board: Board) -> list[int]:
        _read(board, _scratch.pits, _scratch.pits_at)
        return self._line(_awari.awari_longest_line)

    def _line(self, call: Any) -> list[int]:
        """The pits that a call tells of the board that was read. It is asked again for more room, if it has more."""
        at, room = _scratch, 64
        while True:
            pits = ctypes.create_string_buffer(room)
            _expect(call(self._at, at.pits_at, ctypes.addressof(pits), room, at.size_at))
            if at.size.value <= room:
                return list(pits.raw[: at.size.value])
            room = at.size.value

    def counts(self, level: int) -> Counts:
        level = _whole(level, _LEVELS_ARE)
        if not 0 <= level <= HIGHEST_LEVEL:
            raise Refused(59)
        found = ctypes.create_string_buffer(_COUNTS.size)
        with self.share() as own:
            _expect(_awari_long.awari_counts(own._at, level, ctypes.addressof(found)))
        return Counts(size(level), *_COUNTS.unpack(found))

    def probe_many(self, boards: ArrayLike) -> _Array:
        """What the levels say of an array of boards, twelve pits each: an array of value, plan and distance.

        >>> levels.probe_many([[1, 0, 0, 0, 0, 1, 1, 0, 1, 0, 0, 0], [0] * 12]).tolist()
        [(4, 5, 1), (0, 255, 0)]
        """
        import numpy

        rows = _pits_of(boards)
        found = numpy.empty(len(rows), _entry_type("="))
        told = ctypes.c_size_t()
        with self.share() as own:
            _expect(_awari_long.awari_probe_many(own._at, rows.ctypes.data, len(rows), found.ctypes.data, len(found), ctypes.addressof(told)))
        return found

    def share(self) -> Levels:
        """The same levels in an object of their own, which is closed by itself.

        None is copied, and a level that was begun is not shared.

        >>> with levels.share() as shared:
        ...     len(shared)
        7
        """
        handle = _Handle()
        _expect(_awari.awari_share_with(self._at, ctypes.addressof(handle)))
        return Levels._of(handle)

    def begin(self) -> None:
        """Begins the next level, in place of one that was begun. It is refused as 51 or 53.

        >>> with levels.share() as own:
        ...     own.begin()
        ...     own.spread()
        Draft(boards=0, gain=7, settled=False)
        """
        draft = self.share()
        _expect(_awari_long.awari_begin(draft._at))
        self._draft = draft

    def spread(self, boards: int = _SLICE) -> Draft:
        """Builds a slice of the level that was begun: spreads about this many boards of one distance, or opens a gain.

        It is refused as 59 if no level was begun, and as 53, and then the level is lost. Other threads ask meanwhile,
        and wait for nothing.

        >>> with levels.share() as own:
        ...     own.begin()
        ...     while not (draft := own.spread(10_000)).settled:
        ...         pass
        >>> draft
        Draft(boards=27341, gain=1, settled=True)
        """
        boards = _whole(boards, "a slice is a whole number of boards")
        if boards < 1:
            raise ValueError(f"a slice is 1 board or more, and not {boards}")
        draft, told = self._begun(), ctypes.create_string_buffer(_DRAFT.size)
        with draft._turn:
            _expect(_awari_long.awari_spread(draft._at, min(boards, 2**63), ctypes.addressof(told)))
        return Draft(*_DRAFT.unpack(told))

    def finish(self) -> bytearray:
        """Puts the level on that was begun and whose gains are all closed, and gives the bytes of its file.

        It is refused as 59 if no level was begun or not all gains are closed, and as 53, and then the level is lost.
        If it is refused as 84, the object is closed.

        >>> with Levels.start() as own:
        ...     own.begin()
        ...     while not own.spread().settled:
        ...         pass
        ...     len(own.finish()), len(own)
        (90, 1)
        """
        draft = self._begun()
        with draft._turn:
            level = len(draft)
            file = bytearray(_HEADER_BYTES + _ENTRY_BYTES * size(min(level, HIGHEST_LEVEL)) + _DIGEST_BYTES)
            place = (ctypes.c_char * len(file)).from_buffer(file)
            _expect(_awari_long.awari_finish(draft._at, ctypes.addressof(place), len(file)))
        with self._change:
            if len(self) != level:  # it was closed, or another thread has put this level on
                raise Refused(59)
            _expect(_awari.awari_share_with(draft._at, self._at))
        return file

    def build(self) -> bytearray:
        """Builds the next level, puts it on and gives the bytes of its file. It is refused as `begin` and `finish` are.

        Threads that build at once do so in turn, each a level of its own.

        >>> with Levels("levels", most=3) as own:
        ...     file = own.build()
        >>> file[-32:].hex()
        'b55db5f40f80654fee93fde6d202a74b07968d57100653e9539b264afcbfc16d'
        """
        with self._turn:
            self.begin()
            while not self.spread().settled:
                pass
            return self.finish()

    def _begun(self) -> Levels:
        """What has the levels and the next one, which was begun. A long call has it, and others don't ask it."""
        draft = self._draft
        if draft is None:
            raise Refused(59)
        return draft

    def close(self) -> None:
        """Gives the levels back, if no other object shares them, and one that was begun."""
        if self._at is not None:
            with self._change:
                self._draft = None
                _awari.awari_close(self._at)


class Mapped(_Answers):
    """The levels of a folder in their files, where they lie: level 0 up to the first whose file is not there.

    It opens at once, and takes no memory for levels. Nothing is verified; `check` compares the files with a
    digest that you trust. Any number of threads may ask at once. If a file is cut off meanwhile, the system
    ends the process by SIGBUS; `build` never cuts one off.

    >>> len(Levels.mapped("levels"))
    7
    """

    _files: ctypes.Array[_File] = (_File * 0)()
    _maps: list[mmap.mmap | bytes] = []

    def __init__(self, folder: _Folder, most: int = HIGHEST_LEVEL):
        if not isinstance(folder, (str, os.PathLike)):
            raise TypeError(f"a folder is a str or a path, and not {folder!r}")
        if _whole(most, "the most stones are a whole number") < 0:
            raise ValueError(f"the most stones are 0 or more, and not {most}")
        if not os.path.isdir(folder):
            raise Refused(82, _Fault(), str(folder))
        maps: list[mmap.mmap | bytes] = []
        for level in range(min(most, HIGHEST_LEVEL) + 1):
            path = Path(folder) / f"level_{level:02}.awdb"
            try:
                maps.append(_map(path, level))
            except FileNotFoundError:
                break
            except OSError:
                raise Refused(82, _Fault(level), str(path)) from None
        if not maps:
            raise Refused(82, _Fault(), f"{folder} has no level_00.awdb")
        self._maps, self._files = maps, (_File * len(maps))(*(_File(*_place(content)) for content in maps))

    def __len__(self) -> int:
        return len(self._maps)

    def _file(self, level: int) -> _File:
        files = self._files
        if not 0 <= level < len(files):
            raise Refused(59)
        return files[level]

    def entry(self, board: Board) -> Entry:
        at = _scratch
        _read(board, at.pits, at.pits_at)
        stones = sum(at.pits.raw)
        if stones > 48:
            raise Refused(3)
        maps = self._maps  # so that they stay, should another thread close this
        file = self._file(stones)
        return _entry(_probe_file(file.bytes, file.len, at.pits_at, at.entry_at), at.entry)

    def moves(self, board: Board) -> list[Move]:
        at = _scratch
        _read(board, at.pits, at.pits_at)
        maps = self._maps  # so that they stay
        files = self._files
        _expect(_awari.awari_probe_moves_files(ctypes.addressof(files), len(files), at.pits_at, at.moves_at))
        return _moves(at.moves)

    def line(self, board: Board) -> Line:
        entry = self.entry(board)
        pits = list(_scratch.pits.raw)
        limit = max(self._right_limit(level) for level in range(sum(pits) + 1))
        moves, running, quiet, side = [], 0, 0, 1
        while (rule := _broken_plan(pits, entry.plan)) is None and entry.plan is not None and quiet <= limit:
            moves.append(entry.plan)
            pits, captures = play(pits, entry.plan)
            running += side * captures
            quiet = 0 if captures else quiet + 1
            side = -side
            entry = self.entry(pits)
        if rule is not None:
            raise _breaks(rule, pits)
        # The value of an ended board is what its mover gains by the end.
        return Line(moves, running + side * entry.value if entry.plan is None else running)

    def limit(self, level: int) -> int:
        """The level's greatest distance, as its file says.

        >>> mapped.limit(2)
        9
        """
        maps = self._maps
        if self._file(level).len < _HEADER_BYTES:
            raise Refused(60)
        return int(_LIMIT.unpack_from(maps[level])[0])

    def _right_limit(self, level: int) -> int:
        """The same, if a level may have it. By another limit a line would not end."""
        limit = self.limit(level)
        if limit > _GREATEST_LIMIT:
            raise Refused(83, _Fault(level, 22, 7, 0))
        return limit

    def longest(self, board: Board) -> list[int]:
        pits: list[int] = []
        captures = 0
        while (entry := self._judged(board)).distance and not captures:
            # The losing side plays its lowest pit that takes longest.
            others = (move.pit for move in self.moves(board) if move.distance == entry.distance)
            pit = entry.plan if entry.value > 0 else next(others)
            assert pit is not None  # a distance has a plan
            pits.append(pit)
            board, captures = play(board, pit)
        return pits

    def _judged(self, board: Board) -> Entry:
        """What the files say of a board, if it is right beside what they say of its moves."""
        entry, moves = self.entry(board), self.moves(board)
        rule = _broken_rule(_pits(board), entry, moves)
        if rule is not None:
            raise _breaks(rule, _pits(board))
        return entry

    def check(self, digest: str) -> bool:
        """Whether the last file ends in this digest, in hexadecimal, and each file is one over the file below it.

        Form and digests are judged, and not the entries. A file at fault is a `Refused`. It reads all bytes.

        >>> with Levels.mapped("levels", most=4) as files:
        ...     files.check("b55db5f40f80654fee93fde6d202a74b07968d57100653e9539b264afcbfc16d")
        True
        """
        maps, files = self._maps, self._files
        if not maps:
            raise Refused(59)
        below, own = ctypes.create_string_buffer(32), ctypes.create_string_buffer(32)
        for level, file in enumerate(files):
            answer = _awari_long.awari_check_file(file.bytes, file.len, ctypes.addressof(below), ctypes.addressof(own))
            if 60 <= answer <= 67:
                raise Refused(81, _Fault(level, answer))
            _expect(answer, _Fault(level))
            below.raw = own.raw
        return below.raw.hex() == digest.lower()

    def entries(self, level: int) -> _Array:
        """The level's entries by rank, as an array over the mapped file: value, plan and distance. It is read only.

        >>> mapped.entries(1)[5:8].tolist()
        [(-1, 255, 0), (-1, 5, 1), (1, 255, 0)]
        """
        import numpy

        maps = self._maps
        if self._file(level).len < _HEADER_BYTES + _ENTRY_BYTES * size(level):
            raise Refused(60)
        return numpy.frombuffer(memoryview(maps[level]).toreadonly(), _entry_type(">"), size(level), _HEADER_BYTES)

    def values(self, level: int) -> _Array:
        """The level's values by rank, as an array over the mapped file. It is read only.

        >>> mapped.values(1).tolist()
        [-1, -1, -1, -1, -1, -1, -1, 1, 1, 1, 1, 1]
        """
        values: _Array = self.entries(level)["value"]
        return values

    def probe_many(self, boards: ArrayLike) -> _Array:
        """What the files say of an array of boards, twelve pits each: an array of value, plan and distance.

        >>> mapped.probe_many([[1, 0, 0, 0, 0, 1, 1, 0, 1, 0, 0, 0]])["value"].tolist()
        [4]
        """
        import numpy

        rows = _pits_of(boards)
        levels, ranks = rank_many(rows)
        found = numpy.empty(len(rows), _entry_type("="))
        for level in numpy.unique(levels):
            here = levels == level
            found[here] = self.entries(int(level))[ranks[here]]
        return found

    def counts(self, level: int) -> Counts:
        values = self.values(level)
        won, lost = int((values > 0).sum()), int((values < 0).sum())
        return Counts(len(values), won, len(values) - won - lost, lost, self.limit(level))

    def tally(self, level: int) -> Tally:
        """How many boards of a level have each value, and each distance.

        >>> mapped.tally(1)
        Tally(values={-1: 7, 1: 5}, distances={0: 11, 1: 1})
        """
        entries = self.entries(level)
        return Tally(_numbers(entries["value"]), _numbers(entries["distance"]))

    def close(self) -> None:
        """Gives the files back. An array over a file keeps that file's bytes as long as it lives."""
        self._files, self._maps = (_File * 0)(), []


def _numbers(found: _Array) -> dict[int, int]:
    """Each number of an array, and how often it is there."""
    import numpy

    numbers, times = numpy.unique(found, return_counts=True)
    return dict(zip(numbers.tolist(), times.tolist()))


def _map(path: Path, level: int) -> mmap.mmap | bytes:
    """The bytes of a level's file, where they lie. A pipe is not waited for, since it is no file."""
    # Windows has other flags, and nobody inherits a file there.
    flags = sum(getattr(os, name, 0) for name in ("O_NONBLOCK", "O_CLOEXEC", "O_BINARY"))
    descriptor = os.open(path, os.O_RDONLY | flags)
    try:
        state = os.fstat(descriptor)
        if not stat.S_ISREG(state.st_mode):
            raise Refused(82, _Fault(level), str(path))
        if state.st_size == 0:
            return b""
        # An address is given of what may be written alone. What is written so stays in this process, and what is
        # handed on of these bytes is read only.
        try:
            if not hasattr(mmap, "MAP_PRIVATE"):
                return mmap.mmap(descriptor, state.st_size, access=mmap.ACCESS_COPY)
            flags = mmap.MAP_PRIVATE | getattr(mmap, "MAP_NORESERVE", 0)
            return mmap.mmap(descriptor, state.st_size, flags, mmap.PROT_READ | mmap.PROT_WRITE)
        except OSError:
            raise Refused(81, _Fault(level, 68)) from None
    finally:
        os.close(descriptor)


def _place(content: mmap.mmap | bytes) -> tuple[int, int]:
    """The address and the length of mapped bytes. An empty file has some address."""
    if isinstance(content, bytes):
        return ctypes.addressof(_SOME_BYTE), 0
    return ctypes.addressof(ctypes.c_char.from_buffer(content)), len(content)


def _pits(board: Board) -> list[int]:
    """The stones of the board's pits."""
    _read(board, _scratch.pits, _scratch.pits_at)
    return list(_scratch.pits.raw)


def _breaks(rule: int, pits: list[int]) -> Refused:
    """The refusal of a board whose entry breaks a rule of docs/FORMATS.md."""
    at = _scratch
    at.pits.raw = bytes(pits)
    _expect(_awari.awari_rank(at.pits_at, at.byte_at, at.rank_at))
    return Refused(83, _Fault(at.byte.value, 22, rule, at.rank.value))


def _broken_plan(pits: list[int], plan: int | None) -> int | None:
    """The rule that a plan breaks by itself, V2 or V3, if it breaks one."""
    _scratch.pits.raw = bytes(pits)
    bits = _awari.awari_legal(_scratch.pits_at)
    if not bits:
        return None if plan is None else 2
    return None if plan is not None and plan < 8 and bits >> plan & 1 else 3


def _broken_rule(pits: list[int], entry: Entry, moves: list[Move]) -> int | None:
    """The first of the rules V1 to V6 that an entry breaks beside its board's moves, if it breaks one."""
    value, plan, distance = entry
    if abs(value) > sum(pits) or (plan is not None and plan >= PITS // 2):
        return 1
    if not moves:
        gain = sum(pits[: PITS // 2]) - sum(pits[PITS // 2 :])
        return None if (value, plan, distance) == (gain, None, 0) else 2
    planned = next((move for move in moves if move.pit == plan), None)
    if planned is None:
        return 3
    if any(move.value > value for move in moves):
        return 4
    if planned.value != value:
        return 5
    return None if _is_distance(entry, planned, moves) else 6


def _is_distance(entry: Entry, planned: Move, moves: list[Move]) -> bool:
    """Whether V6 holds, if V1 to V5 do. No distance is greater than the greatest limit."""
    if entry.distance > _GREATEST_LIMIT:
        return False
    if entry.value == 0:
        return entry.distance == 0
    if entry.value < 0:
        return entry.distance == max(move.distance for move in moves)
    comes_nearer = planned.captures > 0 or planned.distance <= entry.distance
    return comes_nearer and entry.distance == min(move.distance for move in moves if move.value == entry.value)


def _entry(answer: int, found: ctypes.Array[ctypes.c_char]) -> Entry:
    """What a look-up has found, unless it is refused."""
    if answer:
        raise Refused(answer)
    value, plan, distance = _ENTRY.unpack_from(found)
    return Entry(value, None if plan == NO_PLAN else plan, distance)


def _moves(found: ctypes.Array[ctypes.c_char]) -> list[Move]:
    rows = enumerate(_MOVE.iter_unpack(found))
    return [Move(pit, captures, value, distance) for pit, (legal, captures, value, distance) in rows if legal]


def _entry_type(order: str) -> Any:
    """The type of entries: those of a file, big-endian, or those of the library."""
    import numpy

    if order == ">":
        return numpy.dtype([("value", "i1"), ("plan", "u1"), ("distance", ">u4")])
    return numpy.dtype([("value", "i1"), ("plan", "u1"), ("distance", "=u4")], align=True)


def _pits_of(boards: ArrayLike) -> _Array:
    """An array of boards as rows of twelve bytes."""
    import numpy

    rows: _Array = numpy.asarray(boards)
    if rows.shape == (0,):
        rows = numpy.empty((0, PITS), numpy.uint8)
    if rows.ndim != 2 or rows.shape[1] != PITS:
        raise Refused(1)
    if rows.dtype != numpy.uint8:
        if not numpy.issubdtype(rows.dtype, numpy.integer):
            raise TypeError("boards are rows of twelve whole numbers")
        if rows.size and not (0 <= rows.min() and rows.max() < 256):
            raise Refused(2)
    return numpy.ascontiguousarray(rows, numpy.uint8)


def rank_many(boards: ArrayLike) -> tuple[_Array, _Array]:
    """The levels and the ranks of an array of boards, twelve pits each, of at most 24 stones.

    >>> levels, ranks = rank_many([[0, 0, 0, 0, 0, 1, 0, 0, 0, 0, 0, 0]])
    >>> levels.tolist(), ranks.tolist()
    ([1], [6])
    """
    import numpy

    rows = _pits_of(boards)
    left = rows.sum(axis=1, dtype=numpy.int64)
    levels, ranks = left.copy(), numpy.zeros(len(rows), numpy.int64)
    if len(levels) and levels.max() > HIGHEST_LEVEL:
        raise Refused(59 if levels.max() <= 48 else 3)
    for pit in range(PITS - 1):
        before = _before(PITS - 1 - pit)
        ranks += before[left]
        left -= rows[:, pit]
        ranks -= before[left]
    return levels, ranks


def boards(level: int, ranks: ArrayLike) -> _Array:
    """The boards of an array of ranks of a level, twelve pits each.

    >>> boards(1, [6]).tolist()
    [[0, 0, 0, 0, 0, 1, 0, 0, 0, 0, 0, 0]]
    """
    import numpy

    given: _Array = numpy.asarray(ranks)
    if given.size and not numpy.issubdtype(given.dtype, numpy.integer):
        raise TypeError(f"ranks are whole numbers, and not {given.dtype}")
    numbers = numpy.array(given, numpy.int64)
    if len(numbers) and not (0 <= numbers.min() and numbers.max() < size(level)):
        raise IndexError(f"level {level} has ranks 0 to {size(level) - 1}")
    found, left = numpy.zeros((len(numbers), PITS), numpy.uint8), numpy.full(len(numbers), level, numpy.int64)
    for pit in range(PITS - 1):
        before = _before(PITS - 1 - pit)
        # The stones that stay behind this pit are the fewest that leave room for the rank.
        stay = numpy.searchsorted(before, before[left] - numbers)
        found[:, pit] = left - stay
        numbers -= before[left] - before[stay]
        left = stay
    found[:, PITS - 1] = left
    return found


def _before(pits: int) -> _Array:
    """For each number of stones: how many ways there are to lay at most this many in this many pits."""
    import numpy

    return numpy.array([comb(stones + pits, pits) for stones in range(HIGHEST_LEVEL + 1)], numpy.int64)
