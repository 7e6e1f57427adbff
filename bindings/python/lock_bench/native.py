"""The proved library's C functions (``include/lock_bench.h``), by ctypes.

Every state that this package shows comes from here. Which library: the one that is named, else the one that the variable ``LOCK_BENCH_LIBRARY`` names, else
the one in this package, where it is installed, else the one that ``build`` makes from this repository.
"""

from __future__ import annotations

import ctypes
import mmap
import os
from collections.abc import Callable
from functools import cache, lru_cache
from pathlib import Path
from typing import Final, NamedTuple, cast

from . import build, identity, linking, sources
from .errors import BenchError, LibraryError
from .identity import Identity

#: The variable that names a shared object to use.
VARIABLE: Final = "LOCK_BENCH_LIBRARY"

#: The smallest buffers that every sheet, and every schedule that the dispatcher gives, is written into.
LEAST_SHEET: Final = 8192
LEAST_SCHEDULE: Final = 8197

#: What is taken for bytes.
Bytes = bytes | bytearray | memoryview | mmap.mmap
#: The numbers of 64 bits that an exploration needs for each state, in its store and in its index.
STORED: Final = 8
INDEXED: Final = 2

_Buffer = ctypes.Array[ctypes.c_char]
# What a buffer has before a call, so that bytes that a call leaves alone can be seen.
_UNTOUCHED: Final = b"\xee"


class Ran(NamedTuple):
    """What a run left: its sheet, and its journal's bytes (``ee`` where none was written)."""

    sheet: bytes
    journal: bytes


class Explored(NamedTuple):
    """What an exploration came to: 0 where no row leads out of the states found, 1 where the memory was too small, 2 where a size is out of its range; the
    number of states; and the rows that the deepest needs."""

    answer: int
    states: int
    depth: int


class ExploredLocks(NamedTuple):
    """The same of two locks, with how many of the states are stuck, and the number of the first of those; where none is, it is the number of states."""

    answer: int
    states: int
    depth: int
    stuck: int
    first: int


class Dispatched(NamedTuple):
    """What the dispatcher gave: its sheet, and the steps given as a schedule file (empty after refusals 1 to 4)."""

    sheet: bytes
    schedule: bytes


def _rows_named(file: bytes) -> int:
    """The number of rows that a schedule file names, 0 where it is too short to name one."""
    return int.from_bytes(file[3:5], "little") if len(file) >= 5 else 0


class Library:
    """The library's functions on bytes. A call keeps no state, and may run in several threads at once."""

    def __init__(self, path: Path) -> None:
        self.path = path
        try:
            self._library = ctypes.CDLL(str(path))
        except OSError as error:
            raise LibraryError(f"cannot load the library: {error}", str(path)) from None

    def has(self, name: str) -> bool:
        """Whether the library has the function of this name."""
        return hasattr(self._library, name)

    @property
    def identity(self) -> Identity | None:
        """What the library was made from, where it says so."""
        if not self.has(linking.IDENTITY):
            return None
        text = ctypes.string_at(ctypes.addressof(ctypes.c_char.in_dll(self._library, linking.IDENTITY)))
        return Identity.parse(text.decode("ascii"), str(self.path))

    def bench_sheet(self, file: Bytes, journal_length: int | None = None) -> Ran:
        """Runs a schedule file. The journal has as many bytes as the file's rows need, if no length is given."""
        file = _bytes(file, "the schedule")
        journal = _journal(file, journal_length)
        return Ran(self._sheet("bench_sheet", file, journal), bytes(journal))

    def plain_sheet(self, file: Bytes) -> bytes:
        """Runs a file of calls on the plain engine."""
        return self._sheet("plain_sheet", _bytes(file, "the calls"))

    def dispatch_sheet(self, file: Bytes) -> Dispatched:
        """Dispatches a file of wanted calls."""
        return self._dispatched("dispatch_sheet", _bytes(file, "the wanted calls"))

    def draw_sheet(self, file: Bytes, turns: Bytes) -> Dispatched:
        """Gives the steps of a file of wanted calls at these turns, each a byte that names a thread."""
        return self._dispatched("draw_sheet", _bytes(file, "the wanted calls"), _bytes(turns, "the turns"))

    def site_sheet(self, site: Bytes, turns: Bytes) -> bytes:
        """Runs a site at these turns, each a byte that names a thread, and tells what that cost."""
        return self._sheet("site_sheet", _bytes(site, "the site"), _bytes(turns, "the turns"))

    def ticket_sheet(self, file: Bytes) -> bytes:
        """Runs a file of the ticket lock."""
        return self._sheet("ticket_sheet", _bytes(file, "the file"))

    def record_sheet(self, record: Bytes, length: int | None = None) -> bytes:
        """Compares a record, or as many bytes of it as are named, with the bench. A map or an array is lent and not copied."""
        whole = record if isinstance(record, (bytearray, mmap.mmap)) else _bytes(record, "the record")
        length = len(whole) if length is None else length
        if not 0 <= length <= len(whole):
            raise BenchError(f"the length of the record must be 0 to {len(whole)}, not {length}")
        return self._sheet("record_sheet", whole[:length] if isinstance(whole, bytes) else (ctypes.c_char * length).from_buffer(whole))

    def explore_lock(self, sizes: bytes, store: mmap.mmap, index: mmap.mmap) -> Explored:
        """Explores a lock of these sizes, N, F and T, in memory that is lent: a store and an index."""
        states, depth = ctypes.c_uint64(), ctypes.c_uint64()
        answer = self._function("explore_lock")(*map(ctypes.c_size_t, sizes), *_numbers(store), *_numbers(index), ctypes.byref(states), ctypes.byref(depth))
        return Explored(answer, states.value, depth.value)

    def explore_locks(self, sizes: bytes, ordered: bool, store: mmap.mmap, second: mmap.mmap, index: mmap.mmap) -> ExploredLocks:
        """Explores two locks of these sizes likewise, with all rows or with those in lock order, in a store for each lock."""
        told = [ctypes.c_uint64() for _ in ExploredLocks._fields[1:]]
        sizes_and_order = (*map(ctypes.c_size_t, sizes), ctypes.c_size_t(ordered))
        answer = self._function("explore_locks")(*sizes_and_order, *_numbers(store), *_numbers(second), *_numbers(index), *map(ctypes.byref, told))
        return ExploredLocks(answer, *(number.value for number in told))

    def explored(self, sizes: bytes, store: mmap.mmap) -> States:
        """The states that ``explore_lock`` left in a store, or ``explore_locks`` in the first."""
        return States(self._function("explore_schedule"), self._function("bench_sheet"), sizes, store)

    def credit_sheet(self, file: Bytes, till: Bytes, journal_length: int | None = None) -> Ran:
        """Runs a schedule file with a till beside it."""
        file, till = _bytes(file, "the schedule"), _bytes(till, "the till")
        journal = _journal(file, journal_length)
        return Ran(self._sheet("credit_sheet", file, till, journal), bytes(journal))

    def sheet(self, file: Bytes, till: Bytes | None = None) -> Ran:
        """Runs a schedule file, with a till beside it if there is one."""
        return self.bench_sheet(file) if till is None else self.credit_sheet(file, till)

    def _dispatched(self, name: str, *slices: bytes) -> Dispatched:
        """Calls a function that gives steps back as a schedule."""
        schedule = _buffer(LEAST_SCHEDULE)
        sheet = self._sheet(name, *slices, schedule)
        given = bytes(schedule)
        # N is 32 at most, so the first byte tells whether a schedule was written.
        return Dispatched(sheet, b"" if given[:1] == _UNTOUCHED else given[: 5 + 2 * _rows_named(given)])

    def _sheet(self, name: str, *slices: bytes | _Buffer) -> bytes:
        """Calls a function: its slices, each a pointer and a length, then the sheet's buffer."""
        function = self._function(name)
        sheet = _buffer(LEAST_SHEET)
        arguments: list[object] = []
        for part in (*slices, sheet):
            length = len(part)
            pointer = ctypes.c_char_p(part) if isinstance(part, bytes) else part
            arguments += [pointer, ctypes.c_size_t(length)]
        length = function(*arguments)
        if not 0 < length <= LEAST_SHEET:
            raise LibraryError(f"{name} gave a length of {length}", str(self.path))
        return ctypes.string_at(sheet, length)

    def _function(self, name: str) -> Callable[..., int]:
        """A function of the library, which gives a length, an answer or a number."""
        try:
            function = getattr(self._library, name)
        except AttributeError:
            raise LibraryError(f"the library has no function {name}", str(self.path)) from None
        function.restype = ctypes.c_size_t
        return cast("Callable[..., int]", function)


class States:
    """The states in a store, by number. The buffers are used again for each, so one process asks for one state at a time."""

    def __init__(self, schedule: Callable[..., int], sheet: Callable[..., int], sizes: bytes, store: mmap.mmap) -> None:
        self._schedule, self._bench_sheet = schedule, sheet
        self._store = (*map(ctypes.c_size_t, sizes), *_numbers(store))
        self._file, self._journal, self._sheet = _buffer(LEAST_SCHEDULE), _buffer(LEAST_SCHEDULE), _buffer(LEAST_SHEET)
        self._lengths = ctypes.c_size_t(LEAST_SCHEDULE), ctypes.c_size_t(LEAST_SHEET)

    def file(self, state: int) -> bytes:
        """The schedule file of a state: the rows by which it was come to, the fewest there are where the exploration is complete."""
        return ctypes.string_at(self._file, self._written(state))

    def sheet(self, state: int) -> bytes:
        """The bench's sheet of that schedule."""
        file, sheet = self._lengths
        length = self._written(state)
        return ctypes.string_at(self._sheet, self._bench_sheet(self._file, ctypes.c_size_t(length), self._journal, file, self._sheet, sheet))

    def ask(self, file: bytes, thread: int, order: int) -> Ran:
        """The sheet of a schedule file and one more row, and that row's kind and word; no kind where the row is refused."""
        count = len(file) // 2 - 2
        longer = file[:3] + (count + 1).to_bytes(2, "little") + file[5 : 5 + count] + bytes((thread,)) + file[5 + count :] + bytes((order,))
        self._journal[count] = _UNTOUCHED
        lengths = self._lengths
        length = self._bench_sheet(longer, ctypes.c_size_t(len(longer)), self._journal, lengths[0], self._sheet, lengths[1])
        kind, word = self._journal[count], self._journal[2 * count + 1]
        return Ran(ctypes.string_at(self._sheet, length), b"" if kind == _UNTOUCHED else kind + word)

    def _written(self, state: int) -> int:
        length = self._schedule(*self._store, ctypes.c_size_t(state), self._file, self._lengths[0])
        if length == 0:
            raise BenchError(f"there is no state {state} in the store")
        return length


def _numbers(lent: mmap.mmap) -> tuple[_Buffer, ctypes.c_size_t]:
    """A map that is lent as numbers of 64 bits: where it begins, and how many they are."""
    return _array(len(lent)).from_buffer(lent), ctypes.c_size_t(len(lent) // 8)


def _bytes(given: Bytes, what: str) -> bytes:
    """The bytes that are given."""
    if isinstance(given, bytes):
        return given
    try:
        return bytes(memoryview(given))
    except TypeError:
        raise BenchError(f"{what} must be bytes, not {type(given).__name__}") from None


def _buffer(length: int) -> _Buffer:
    buffer = _array(length)()
    buffer.raw = _UNTOUCHED * length
    return buffer


@lru_cache(64)
def _array(length: int) -> type[_Buffer]:
    """The type of a buffer. It is kept, since ctypes takes as long to make one as the library to run a schedule."""
    return ctypes.c_char * length


def _journal(file: bytes, length: int | None) -> _Buffer:
    if length is None:
        length = 2 * _rows_named(file)
    if length < 0:
        raise BenchError(f"the length of a journal must be 0 or more, not {length}")
    return _buffer(length)


def load(path: Path | None = None) -> Library:
    """The library at this path, or the one that is used where none is named (see the module). Each is loaded, and the last is built, once."""
    return _loaded((path or _named() or _built()).resolve())


def told() -> list[str]:
    """Lines for ``--version``: which library is used, and what it was proved from; nothing is built for it."""
    path = _named()
    if path is None:
        there = build.current() if sources.has_sources() else None
        if there is None:
            return build.not_built()
        path = there.library
    try:
        made_from = load(path).identity
    except LibraryError as error:
        return identity.head("library", str(error))
    return identity.told("library", path, made_from, sources.sum_of() if sources.has_sources() else None)


def _named() -> Path | None:
    """The library that is there without a build: that of the variable, or that of the installed package."""
    named = os.environ.get(VARIABLE)
    if named:
        return Path(named)
    packaged = Path(__file__).with_name(linking.SHARED)
    return packaged if packaged.exists() else None


@cache
def _built() -> Path:
    return build.built().library


@cache
def _loaded(path: Path) -> Library:
    return Library(path)
