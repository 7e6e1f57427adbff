"""Several rows at once behind a run: a call to its end, until somebody sleeps, rounds of the dispatcher, drawn turns.

Who is in a call, at rest or asleep, and whether a row is taken, the library says.
"""

from __future__ import annotations

import random
import time
from collections.abc import Callable, Iterator
from typing import NamedTuple

from . import journal, orders
from .history import MOST_ROWS, History
from .schedule import Row, rows_text
from .search import Space

Wanted = tuple[tuple[int, ...], ...]


class Limits(NamedTuple):
    """Where several rows end early: at this time (of ``time.monotonic``), or where this holds of the rows made so far."""

    until: float
    stops: Callable[[History], bool]

    def reached(self, history: History) -> str:
        """Why the rows end here, if they do."""
        if len(history.rows) >= MOST_ROWS:
            return f"the bench takes {MOST_ROWS:,} rows, and no more"
        if self.stops(history):
            return "the watched condition came true"
        return "stopped, for it takes long: press again for more" if time.monotonic() >= self.until else ""


class Stepped(NamedTuple):
    """The rows with those that were added, and why there are no more, where that is not what was asked for."""

    history: History
    note: str


def to_end(history: History, thread: int, limits: Limits) -> Stepped:
    """Has a thread go on with its call until it is over, or the thread sleeps or is held up."""
    begun = len(history.rows)
    while True:
        note = limits.reached(history) if len(history.rows) > begun else ""
        if note:
            return Stepped(history, note)
        longer = history.then(Row(thread, orders.GO_ON))
        if longer.answer:
            return Stepped(history, "" if len(history.rows) > begun else f"thread {thread} has no call under way")
        if longer.kinds[-1] == journal.HELD_UP:
            asleep = any(lock.threads[thread].standing == "asleep" for lock in history.end.locks)
            return Stepped(history, f"thread {thread} sleeps" if asleep else f"thread {thread} is held up at the mutex")
        history = longer


def until_asleep(history: History, limits: Limits) -> Stepped:
    """Has those in a call go on, in turns by number, until one more sleeps."""
    asleep = _asleep(history)
    while True:
        moved = False
        for thread in _calling(history):
            longer = history.then(Row(thread, orders.GO_ON))
            if longer.answer or longer.kinds[-1] == journal.HELD_UP:
                continue
            history, moved = longer, True
            if _asleep(history) > asleep:
                return Stepped(history, "")
            note = limits.reached(history)
            if note:
                return Stepped(history, note)
        if not moved:
            return Stepped(history, "every call under way is held up" if _calling(history) else "no call is under way, and nobody fell asleep")


def rounds(history: History, count: int, wanted: Wanted | None, limits: Limits) -> Stepped:
    """Gives each thread that is neither asleep nor done a step, by number, so many times, as the dispatcher does; a thread at rest begins its next wanted call."""
    for number in range(count):
        before = len(history.rows)
        for thread in range(history.threads):
            order = _due(history, thread, wanted)
            if order is None:
                continue
            longer = history.then(Row(thread, order))
            if longer.answer:
                return Stepped(history, f"'{orders.words(order)}' of thread {thread} is refused with {longer.answer}")
            history = longer
            note = limits.reached(history)
            if note:
                return Stepped(history, note)
        if len(history.rows) == before:
            return Stepped(history, f"after {number} of {count} rounds nobody has a step to make" if number else "nobody has a step to make: no call is under way")
    return Stepped(history, "")


def drawn(history: History, count: int, wanted: Wanted | None, locks: int, till: bytes | None, seed: int, limits: Limits) -> Stepped:
    """So many rows of threads drawn at random: one in a call goes on, one at rest begins its next wanted call, or any that suits it."""
    draw = random.Random(f"{seed} {len(history.rows)}")
    nodes, fan, threads = history.schedule.nodes, history.schedule.fan, history.threads
    space = Space(nodes, fan, threads, locks, till, wanted, MOST_ROWS)
    begun = len(history.rows)
    while len(history.rows) < begun + count:
        longer = next(_drawn(space, history, draw), None)
        if longer is None:
            return Stepped(history, f"after {rows_text(len(history.rows) - begun)} nobody can move")
        history = longer
        note = limits.reached(history)
        if note and len(history.rows) < begun + count:
            return Stepped(history, note)
    return Stepped(history, "")


def _drawn(space: Space, history: History, draw: random.Random) -> Iterator[History]:
    """One row more, of a thread that is drawn or, where it cannot move, of the others in turn."""
    first = int(draw.random() * space.threads)
    for thread in (*range(first, space.threads), *range(first)):
        order = space.order(history, thread, draw)
        if order is not None:
            longer = history.then(Row(thread, order))
            if not longer.answer and longer.kinds[-1] != journal.HELD_UP:
                yield longer


def _due(history: History, thread: int, wanted: Wanted | None) -> int | None:
    """The order of a thread's next step by the dispatcher's rule; None where it sleeps or is done."""
    standings = {lock.threads[thread].standing for lock in history.end.locks}
    if "asleep" in standings:
        return None
    if "calling" in standings:
        return orders.GO_ON
    calls = wanted[thread] if wanted is not None else ()
    begun = sum(row.thread == thread and row.order != orders.GO_ON for row in history.rows)
    return calls[begun] if begun < len(calls) else None


def _calling(history: History) -> list[int]:
    return [thread for thread in range(history.threads) if any(lock.threads[thread].standing == "calling" for lock in history.end.locks)]


def _asleep(history: History) -> int:
    return sum(line.standing == "asleep" for lock in history.end.locks for line in lock.threads)
