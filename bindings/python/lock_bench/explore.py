"""Complete explorations of small locks: every state that rows of any number lead to, each with a shortest schedule.

The search is the library's (``explore_lock``), and proved: where it is complete, no row of any thread and order leads out of the states found. They are told
apart but for failed swaps, which matter to no row. What a state shows is the bench's sheet of its schedule; nothing here computes one.
"""

from __future__ import annotations

import mmap
import os
import threading
import time
from collections import Counter
from collections.abc import Callable, Iterator
from functools import lru_cache, partial
from pathlib import Path
from typing import Final, NamedTuple, TypeVar

from . import orders, processes
from .errors import BenchError
from .history import History
from .journal import Entry
from .native import INDEXED, STORED, Explored, ExploredLocks, Library, States, load
from .schedule import Row, Schedule
from .sheet import Sheet
from .stuck import is_stuck_after

#: The most nodes, fan-out and threads that are explored.
MOST_NODES: Final = 8
MOST_FAN: Final = 16
MOST_THREADS: Final = 8
#: The bytes that an exploration may use where nobody says otherwise, and those that each state takes.
MEMORY: Final = 1 << 30
STATE_BYTES: Final = 8 * (STORED + INDEXED)
#: Those of a state of two locks.
LOCKS_BYTES: Final = 8 * (2 * STORED + INDEXED)
# The states that the first store has room for, and how many times as many each further one has.
_ROOM: Final = 1 << 14
_GROWTH: Final = 8
# Seconds between two looks at a call that takes long.
_LOOK: Final = 0.05
# So many states are looked at at once, a few at first, for what is searched for may come soon; and so many by one process alone.
_FIRST_PART: Final = 1 << 10
_PART: Final = 1 << 14
_ALONE: Final = 1 << 14

#: The program counters of a thread, by number: `Pc` of the crate `cells`.
PROGRAM_COUNTERS: Final = (
    "idle", "writing", "reading", "look", "enter", "climb", "climb swap", "descend", "again swap", "depart", "depart swap", "owed", "owed swap", "traded",
    "traded swap", "leave", "leave swap", "queue read", "queue back", "queue join", "sleep", "write look", "write enter", "write read", "write close",
    "write hold", "write join", "unlock next", "unlock open", "unlock end", "unlock store", "last next", "free readers", "wake readers", "free writer",
    "wake writer", "trade", "trade swap", "upgrade look", "upgrade swap", "downgrade next", "downgrade store", "downgrade free", "downgrade wake",
    "queue take", "write take", "unlock take", "last take", "downgrade take", "asleep",
)  # fmt: skip

# Those from here on are held up where the mutex is taken, or asleep.
_HELD_UP: Final = PROGRAM_COUNTERS.index("queue take")

# The orders that suit a thread by its program counter: at rest there are some, in a call or asleep it goes on.
_IDLE: Final = PROGRAM_COUNTERS.index("idle")
_SUITING: Final = {
    PROGRAM_COUNTERS.index("reading"): (orders.UNLOCK, orders.UPGRADE),
    PROGRAM_COUNTERS.index("writing"): (orders.UNLOCK, orders.DOWNGRADE),
}
_BEGINNINGS: Final = (orders.WRITE_LOCK, *range(orders.READ_LOCK, orders.READ_LOCK + MOST_NODES))
_GOING: Final = (orders.GO_ON,)

Given = TypeVar("Given")


class Seen(NamedTuple):
    """States that show the same: the first of them, and how many there are."""

    first: int
    states: int


class Part(NamedTuple):
    """Some states after each other: what they show, failed swaps aside; how many are how deep; in how many a thread has which program counter; how many are
    stuck."""

    first: int
    end: int
    shown: dict[bytes, Seen]
    depths: Counter[int]
    counters: Counter[int]
    stuck: int


class Asked(NamedTuple):
    """A row at a state: the program counter of its thread there, what it does, and what the lock shows before and after it, failed swaps aside."""

    state: int
    counter: int
    row: Row
    entry: Entry
    before: bytes
    after: bytes


class Opened:
    """The states in a store, by number, as one process asks for them."""

    def __init__(self, sizes: bytes, store: mmap.mmap, library: Library) -> None:
        self.sizes, self.library = sizes, library
        self._states, self._numbers = library.explored(sizes, store), memoryview(store).cast("Q")

    def sheet(self, state: int) -> bytes:
        """The bench's sheet of the schedule of a state."""
        return self._states.sheet(state)

    def schedule(self, state: int) -> Schedule:
        """The schedule of a state."""
        return Schedule.from_bytes(self._states.file(state))

    def history(self, state: int) -> History:
        """The rows of that schedule, with the states between them."""
        return History(self.sizes, self.schedule(state).rows, None, self.library)

    def asked(self, state: int) -> Iterator[Asked]:
        """Every row that the library takes in a state: a call that suits a thread at rest, or its next step."""
        file, before = self._states.file(state), first_lock(self._states.sheet(state))
        for thread, counter in enumerate(self.program_counters(state)):
            for order in _SUITING.get(counter) or (_BEGINNINGS[: 1 + self.sizes[0]] if counter == _IDLE else _GOING):
                ran = self._states.ask(file, thread, order)
                if ran.journal:
                    yield Asked(state, counter, Row(thread, order), Entry(*ran.journal), before, first_lock(ran.sheet))

    def path(self, state: int) -> list[int]:
        """The states on the way of a schedule, from the fresh lock to the state itself."""
        way = [state]
        while way[-1]:
            way.append(self.parent(way[-1]))
        return way[::-1]

    def parent(self, state: int) -> int:
        """The state that the last row of its schedule comes from, which stands in the store, as the header says."""
        return self._numbers[STORED * state] >> 32

    def depth(self, state: int) -> int:
        """How many rows these are. It stands in the store, as the header says."""
        return self._numbers[STORED * state] >> 16 & 0xFFFF

    def program_counters(self, state: int) -> tuple[int, ...]:
        """The program counter of each thread (``PROGRAM_COUNTERS``), which stands in the store likewise."""
        base = STORED * state + 4
        return tuple(self._numbers[base + thread // 2] >> 32 * (thread % 2) & 63 for thread in range(self.sizes[2]))


class Exploration:
    """The states that were found, numbered from 0, the fresh lock, on in the order of their depth."""

    def __init__(self, nodes: int, fan: int, threads: int, found: Explored, in_time: bool, store: Store, library: Library) -> None:
        self.nodes, self.fan, self.threads = nodes, fan, threads
        #: Whether these are all states that there are; else the memory or, where it is not in time, the time was too little, and they are some.
        self.complete = found.answer == 0
        self.in_time = in_time
        self.states = found.states
        #: The rows that the deepest state needs.
        self.depth = found.depth
        self._store = store
        self._opened = Opened(bytes((nodes, fan, threads)), store.map, library)

    @property
    def sizes(self) -> str:
        """The sizes, for messages."""
        return f"N {self.nodes}, F {self.fan}, T {self.threads}"

    def schedule(self, state: int) -> Schedule:
        """The schedule of a state: no other that leads there has fewer rows, where the exploration is complete."""
        return self._checked(state).schedule(state)

    def history(self, state: int) -> History:
        """The rows of that schedule, with the states between them."""
        return self._checked(state).history(state)

    def program_counters(self, state: int) -> tuple[int, ...]:
        """The program counter of each thread in a state (``PROGRAM_COUNTERS``)."""
        return self._checked(state).program_counters(state)

    def fresh(self) -> History:
        """The fresh lock, with no rows."""
        return self._opened.history(0)

    def asked(self, state: int) -> Iterator[Asked]:
        """Every row that the library takes in a state, and what it does."""
        return self._checked(state).asked(state)

    def path(self, state: int) -> list[int]:
        """The states on the way of its schedule, from the fresh lock to the state itself."""
        return self._checked(state).path(state)

    def _checked(self, state: int) -> Opened:
        if not 0 <= state < self.states:
            raise BenchError(f"there is no state {state}: there are {self.states}")
        return self._opened

    def over(self, work: Callable[[Opened, int, int], Given], jobs: int = 1) -> Iterator[tuple[int, Given]]:
        """What some work gives for the states from one to another, in order, with that other's number. Several processes share it where there is much."""
        if jobs == 1 or self.states <= _ALONE:
            for first, end in _ranges(self.states):
                yield end, work(self._opened, first, end)
            return
        made = partial(_worked, work, self._opened.sizes, self._store.path, self._opened.library.path)
        with processes.started(jobs) as pool:
            yield from pool.map(made, list(_ranges(self.states)))

    def parts(self, jobs: int = 1) -> Iterator[Part]:
        """What the states show, in order, part by part."""
        return (part for _, part in self.over(_part, jobs))


class Store:
    """Memory for so many states that processes can share. It has no name in any folder, and is gone with the processes that use it."""

    def __init__(self, states: int) -> None:
        self._file = os.memfd_create("lock_bench")
        os.ftruncate(self._file, 8 * STORED * states)
        self.path = Path(f"/proc/{os.getpid()}/fd/{self._file}")
        self.map = mmap.mmap(self._file, 0)

    def __del__(self) -> None:
        os.close(self._file)


def explore(
    nodes: int,
    fan: int,
    threads: int,
    memory: int = MEMORY,
    seconds: float | None = None,
    watch: Callable[[Explored, float], None] | None = None,
    library: Library | None = None,
) -> Exploration:
    """Explores a lock of these sizes in at most so many bytes and, about, seconds.

    The store begins small and grows, and the search begins anew with each. ``watch`` is given what the latest one found, and the seconds so far, now and then.
    """
    library = library or load()
    begun, sizes = time.monotonic(), _sizes(nodes, fan, threads)
    found, most_states = Explored(1, 0, 0), _most_states(memory, STATE_BYTES)
    room = min(_ROOM, most_states)
    while True:
        store, index = Store(room), mmap.mmap(-1, 8 * INDEXED * room)
        before, started = found, time.monotonic()
        found = _made(partial(library.explore_lock, sizes, store.map, index), lambda: watch and watch(before, time.monotonic() - begun))
        if found.answer == 2:
            raise BenchError(f"refused with 2: N {nodes}, F {fan}, T {threads} are out of the range that is explored")
        now = time.monotonic()
        larger = min(_GROWTH * room, most_states)
        # The next one takes as many times longer as it has more room.
        late = seconds is not None and now - begun + (now - started) * larger / room > seconds
        if found.answer == 0 or larger == room or late:
            return Exploration(nodes, fan, threads, found, found.answer == 0 or larger == room, store, library)
        room = larger


class Locks(NamedTuple):
    """Two locks over one set of threads, explored, and a shortest schedule to a stuck state, where there is one."""

    found: ExploredLocks
    crossed: Schedule | None


def explore_locks(
    nodes: int,
    fan: int,
    threads: int,
    ordered: bool = False,
    memory: int = MEMORY,
    watch: Callable[[float], None] | None = None,
    library: Library | None = None,
) -> Locks:
    """Explores two locks of these sizes, with all rows or with those in lock order, in at most so many bytes. ``watch`` is given the seconds so far."""
    library = library or load()
    begun, sizes, room = time.monotonic(), _sizes(nodes, fan, threads), _most_states(memory, LOCKS_BYTES)
    stores = [mmap.mmap(-1, 8 * numbers * room) for numbers in (STORED, STORED, INDEXED)]
    found = _made(partial(library.explore_locks, sizes, ordered, *stores), lambda: watch and watch(time.monotonic() - begun))
    crossed = Schedule.from_bytes(library.explored(sizes, stores[0]).file(found.first)) if found.stuck else None
    return Locks(found, crossed)


def _sizes(nodes: int, fan: int, threads: int) -> bytes:
    for name, size, most in (("nodes", nodes, MOST_NODES), ("fan", fan, MOST_FAN), ("threads", threads, MOST_THREADS)):
        if not 1 <= size <= most:
            raise BenchError(f"{name} must be 1 to {most} to be explored, not {size}")
    return bytes((nodes, fan, threads))


def _most_states(memory: int, each: int) -> int:
    if memory < each:
        raise BenchError(f"{memory} bytes have no room for a state")
    return memory // each


def _made(call: Callable[[], Given], meanwhile: Callable[[], object]) -> Given:
    """What a call gives that may take long. It is made by another thread, so that this one hears Control-C, and is not waited for then."""
    given: list[Given] = []
    failed: list[BaseException] = []

    def made() -> None:
        try:
            given.append(call())
        except BaseException as error:
            failed.append(error)

    maker = threading.Thread(target=made, daemon=True)
    maker.start()
    while True:
        maker.join(_LOOK)
        meanwhile()
        if not maker.is_alive():
            break
    if failed:
        raise failed[0]
    return given[0]


# ---- What the states show.


def _ranges(states: int) -> Iterator[tuple[int, int]]:
    first, length = 0, _FIRST_PART
    while first < states:
        yield first, min(first + length, states)
        first, length = first + length, min(2 * length, _PART)


def _worked(work: Callable[[Opened, int, int], Given], sizes: bytes, store: Path, library: Path, between: tuple[int, int]) -> tuple[int, Given]:
    """Does some work; runs in a process of its own."""
    return between[1], work(_opened(sizes, store, library), *between)


@lru_cache(1)
def _opened(sizes: bytes, store: Path, library: Path) -> Opened:
    with open(store, "r+b") as file:
        return Opened(sizes, mmap.mmap(file.fileno(), 0), load(library))


def _part(opened: Opened, first: int, end: int) -> Part:
    """What the states from one to another show."""
    seen: dict[bytes, list[int]] = {}
    depths: Counter[int] = Counter()
    counters: Counter[tuple[int, ...]] = Counter()
    stuck = 0
    for state in range(first, end):
        seen.setdefault(_lines(opened.sheet(state)), [state, 0])[1] += 1
        depths[opened.depth(state)] += 1
        at = opened.program_counters(state)
        counters[at] += 1
        if min(at) >= _HELD_UP:
            stuck += is_stuck_after(opened.history(state))
    shown: dict[bytes, Seen] = {}
    for lines, (earliest, count) in seen.items():
        put_together(shown, _without_failures(lines), Seen(earliest, count))
    somewhere: Counter[int] = Counter()
    for at, count in counters.items():
        for counter in set(at):
            somewhere[counter] += count
    return Part(first, end, shown, depths, somewhere, stuck)


def put_together(shown: dict[bytes, Seen], lines: bytes, seen: Seen) -> None:
    """Adds states that show these lines."""
    before = shown.get(lines)
    shown[lines] = seen if before is None else Seen(min(before.first, seen.first), before.states + seen.states)


def first_lock(sheet: bytes) -> bytes:
    """What a sheet shows of the first lock, failed swaps aside."""
    return _without_failures(_lines(sheet))


def _lines(sheet: bytes) -> bytes:
    """The first lock's lines, from behind the answer to the second lock's root."""
    begin = sheet.index(b"\n") + 1
    return sheet[begin : sheet.index(b"\nroot ", begin) + 1]


@lru_cache(1 << 16)
def _without_failures(lines: bytes) -> bytes:
    """A lock's lines with no failed swaps, as which states are told apart."""
    return b"".join(line[: line.rindex(b" ") + 1] + b"0\n" if line.startswith(b"thread ") else line + b"\n" for line in lines.splitlines())


def sheet_of(lines: bytes) -> Sheet:
    """A sheet that has these lines of the first lock alone."""
    return Sheet.parse(b"answer 0 at 0\n" + lines)
