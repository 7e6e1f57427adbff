"""The search for a schedule: random walks, and walks on from those prefixes that have come nearest.

A walk gives one row after the other to a thread that can move; who can move, and with which orders, the library's sheets say, and the library takes the row or
refuses it. The walks go in rounds. What a walk does depends on the seed, on its number and on what the rounds before left, so that the same number of rounds
finds the same for any number of processes.
"""

from __future__ import annotations

import random
from collections.abc import Iterator, Sequence
from dataclasses import dataclass
from functools import lru_cache, partial
from pathlib import Path
from typing import Final, NamedTuple

from . import condition, journal, orders, processes
from .condition import Condition, Quantity
from .history import History
from .native import load
from .schedule import Row, Schedule
from .sheet import Sheet
from .shrink import Keeping, counts_held_up, shortened_rows, shrunk_rows

#: The walks of a task, and the tasks of a round.
WALKS: Final = 16
TASKS: Final = 8
#: How many prefixes are kept.
_KEPT: Final = 48
# A walk gives the next row to the same thread again with one of these chances, or goes round the threads: some conditions need calls made whole, others threads
# that meet.
_ROUND: Final = -1.0
_CHANCES: Final = (0.0, 0.5, 0.9, _ROUND)
# Of the walks, those that begin with the fresh lock; and of the others, those that go another way from the middle of a prefix, which is all that a whole run
# of wanted calls can be used for.
_FRESH: Final = 0.25
_CUT: Final = 0.2
_CUT_MOST: Final = 0.9

Rows = tuple[Row, ...]


@dataclass(frozen=True, slots=True)
class Space:
    """Where is searched: sizes, one lock or two, the till, the calls that each thread wants (None for any), and the most rows."""

    nodes: int
    fan: int
    threads: int
    locks: int
    till: bytes | None
    wanted: tuple[tuple[int, ...], ...] | None
    most_rows: int

    @property
    def sizes(self) -> bytes:
        """The first bytes of the schedules."""
        return bytes((self.nodes, self.fan, self.threads))

    @property
    def named(self) -> str:
        """The sizes, for messages."""
        return f"N {self.nodes}, F {self.fan}, T {self.threads}"

    def order(self, history: History, thread: int, draw: random.Random) -> int | None:
        """An order that a thread can be given, as the library's sheet shows it; None where it can be given none."""
        standings = [lock.threads[thread].standing for lock in history.end.locks]
        if "calling" in standings or "asleep" in standings:
            return orders.GO_ON
        if self.wanted is None:
            return _any_call(self, history.end, thread, draw)
        begun = sum(row.thread == thread and row.order != orders.GO_ON for row in history.rows)
        return self.wanted[thread][begun] if begun < len(self.wanted[thread]) else None


def _any_call(space: Space, end: Sheet, thread: int, draw: random.Random) -> int:
    """A call that suits a thread at rest."""
    lock = _pick(draw, space.locks)
    calls = [orders.UNLOCK]
    match end.locks[lock].threads[thread].standing:
        case "reading":
            calls.append(orders.UPGRADE)
        case "writing":
            calls.append(orders.DOWNGRADE)
            if lock == 0 and space.till is not None and space.till[1]:
                calls += [orders.BOOK + _pick(draw, space.till[1])] * 2
        case _:
            calls = [orders.WRITE_LOCK, orders.READ_LOCK + _pick(draw, space.nodes)]
    return calls[_pick(draw, len(calls))] + orders.SECOND * lock


def _pick(draw: random.Random, count: int) -> int:
    """A number below the count. Python promises the same numbers in every version for ``random()`` alone."""
    return int(draw.random() * count)


@dataclass(frozen=True, slots=True)
class Goal:
    """What is searched for: a condition that holds, or the most of a number; as text, which every process reads for itself."""

    text: str
    most: bool = False

    def distance(self, history: History) -> float:
        """How far a history is from the goal, 0 where a condition holds; the most of a number is never reached."""
        goal = _read(self)
        return -float(goal.value(history)) if isinstance(goal, Quantity) else goal.distance(history)

    def counts_held_up(self) -> bool:
        """Whether rows that are held up count. For the most of a number they do not: they could be repeated without end."""
        goal = _read(self)
        return not isinstance(goal, Quantity) and counts_held_up(goal)

    def trimmed(self, rows: Rows, space: Space, keeping_library: Path) -> Rows:
        """A schedule after which the condition holds, without rows that it does not need; of wanted calls none can be left out."""
        goal = _read(self)
        if isinstance(goal, Quantity) or space.wanted is not None:
            return rows
        found = shrunk_rows(Schedule(space.nodes, space.fan, space.threads, rows), Keeping(goal, space.till, load(keeping_library)))
        return rows if found is None else found.rows

    def shortened(self, rows: Rows, space: Space) -> Rows:
        """The same, with threads renamed and calls replaced too, which takes longer."""
        goal = _read(self)
        if isinstance(goal, Quantity) or space.wanted is not None:
            return rows
        found = shortened_rows(Schedule(space.nodes, space.fan, space.threads, rows), Keeping(goal, space.till, load()))
        return rows if found is None else found.rows


@lru_cache(8)
def _read(goal: Goal) -> Condition | Quantity:
    return condition.parse_quantity(goal.text) if goal.most else condition.parse(goal.text)


class Prefix(NamedTuple):
    """Rows that came near: how far they are from the goal."""

    distance: float
    rows: Rows


class Task(NamedTuple):
    """A part of a round: what is drawn, the prefixes to go on from, and the length that is to be undercut."""

    draw: str
    prefixes: tuple[Prefix, ...]
    longest: int


class Done(NamedTuple):
    """What a task did: its walks, the shortest rows found, and the nearest prefixes."""

    walks: int
    found: Rows | None
    prefixes: tuple[Prefix, ...]


def work(space: Space, goal: Goal, library: Path, task: Task) -> Done:
    """Makes the walks of a task; runs in a process of its own."""
    draw = random.Random(task.draw)
    found: Rows | None = None
    nearest: list[Prefix] = []
    longest = task.longest
    for _ in range(WALKS):
        start = _start(task.prefixes, _CUT_MOST if goal.most else _CUT, draw)
        walked = _walk(space, goal, History(space.sizes, start, space.till, load(library)), longest, draw)
        nearest.append(walked)
        if walked.distance == 0 and not goal.most:
            rows = goal.trimmed(walked.rows, space, library)
            if found is None or len(rows) < len(found):
                found, longest = rows, len(rows) - 1
            if longest < 0:
                break
    return Done(WALKS, found, tuple(sorted(nearest, key=_rank)[:WALKS // 2]))


def _start(prefixes: tuple[Prefix, ...], cut: float, draw: random.Random) -> Rows:
    """Where a walk begins: with the fresh lock, or behind a prefix, the nearer ones more often, or behind a part of one."""
    if not prefixes or draw.random() < _FRESH:
        return ()
    rows = prefixes[int(len(prefixes) * draw.random() ** 2)].rows
    return rows[: _pick(draw, len(rows) + 1)] if draw.random() < cut else rows


def _rank(prefix: Prefix) -> tuple[float, int, list[tuple[int, int]]]:
    return prefix.distance, len(prefix.rows), [(row.thread, row.order) for row in prefix.rows]


def _walk(space: Space, goal: Goal, history: History, longest: int, draw: random.Random) -> Prefix:
    """Walks on at random, and gives the first rows that came nearest."""
    nearest = Prefix(goal.distance(history), history.rows)
    sticks, thread = _CHANCES[_pick(draw, len(_CHANCES))], _pick(draw, space.threads)
    held_up = goal.counts_held_up()
    while len(history.rows) < longest and (nearest.distance > 0 or goal.most):
        first = (thread + 1) % space.threads if sticks == _ROUND else thread if draw.random() < sticks else _pick(draw, space.threads)
        moved = next(_moves(space, history, first, held_up, draw), None)
        if moved is None:
            break
        history, thread = moved, moved.rows[-1].thread
        distance = goal.distance(history)
        if distance < nearest.distance:
            nearest = Prefix(distance, history.rows)
    return nearest


def _moves(space: Space, history: History, first: int, held_up: bool, draw: random.Random) -> Iterator[History]:
    """One row more, of this thread or, where it cannot move, of the others in turn."""
    for thread in (*range(first, space.threads), *range(first)):
        order = space.order(history, thread, draw)
        if order is None:
            continue
        longer = history.then(Row(thread, order))
        if not longer.answer and (held_up or longer.kinds[-1] != journal.HELD_UP):
            yield longer


class Search:
    """A search, round by round."""

    def __init__(self, space: Space, goal: Goal, seed: int, library: Path, jobs: int) -> None:
        self._space = space
        self._goal = goal
        self._seed = seed
        self._library = library
        self._work = partial(work, space, goal, library)
        self._pool = processes.started(jobs) if jobs > 1 else None
        self._round = 0
        self.tries = 0
        self.found: Rows | None = None
        #: The number of tries after which the latest was found, or came nearer.
        self.latest = 0
        start = History(space.sizes, (), space.till, load(library))
        self.prefixes: tuple[Prefix, ...] = (Prefix(goal.distance(start), ()),)
        if not goal.most and self.prefixes[0].distance == 0:
            self.found = ()

    @property
    def nearest(self) -> Prefix:
        """The prefix that came nearest."""
        return self.prefixes[0]

    def offer(self, rows: Rows) -> None:
        """Adds rows to go on from."""
        offered = History(self._space.sizes, rows, self._space.till, load(self._library)).without_held_up()
        self.prefixes = _merged(self.prefixes, (Prefix(self._goal.distance(offered), offered.rows),))

    def round(self) -> None:
        """Makes one round of walks."""
        longest = self._space.most_rows if self.found is None else len(self.found) - 1
        near = tuple(prefix for prefix in self.prefixes if len(prefix.rows) < longest or self._goal.most)
        tasks = [Task(f"{self._seed} {self._round} {number}", near, longest) for number in range(TASKS)]
        self._round += 1
        for done in self._worked(tasks):
            self.tries += done.walks
            if done.found is not None and (self.found is None or len(done.found) < len(self.found)):
                self.found, self.latest = done.found, self.tries
            before = self.nearest.distance
            self.prefixes = _merged(self.prefixes, done.prefixes)
            if self.nearest.distance < before:
                self.latest = self.tries

    def _worked(self, tasks: Sequence[Task]) -> Iterator[Done]:
        yield from map(self._work, tasks) if self._pool is None else self._pool.map(self._work, tasks)

    def close(self) -> None:
        """Ends the processes."""
        if self._pool is not None:
            self._pool.close()


def _merged(kept: tuple[Prefix, ...], new: tuple[Prefix, ...]) -> tuple[Prefix, ...]:
    """The nearest of both, each once, the shorter first."""
    return tuple(sorted({*kept, *new}, key=_rank)[:_KEPT])
