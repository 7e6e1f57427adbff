"""Conditions decided by exploring a small lock: a schedule that no shorter one replaces, or that none leads there.

A condition over what a state shows is asked of every state, in the order of their depth, and of each different sheet once. A row's event is asked of every row
at every state. Since the exploration is complete, and failed swaps matter to no row, the first that suits has the fewest rows of all, and where none suits,
no schedule of any length does (crates/explore_model, specs/Closed, Never and NotWithin).

Of a condition that joins these, as an event with a state, each is decided by itself: an exploration does not tell what was before a state. Where one is
impossible, so is the whole; else no schedule has fewer rows than the one that needs most.
"""

from __future__ import annotations

import sys
import time
from collections.abc import Iterator
from functools import partial
from typing import Final, NamedTuple

from . import condition, journal
from .condition import Comparison, Condition, Join, Quantity
from .excluded import cases
from .explore import MOST_FAN, MOST_NODES, MOST_THREADS, Asked, Exploration, Opened, explore
from .explored import rate_text
from .progress import Progress, Status
from .schedule import rows_text
from .search import Rows, Space

# What a state shows, failed swaps aside.
_SHOWN: Final = frozenset(
    ("number", "standing", "threads", "any", "all", "root", "root direct", "root tree", "root open", "root closed", "node", "queue groups", "queue writers",
     "mutex free", "mutex taken", "mutex by")
)  # fmt: skip
# Of what rows do, the kinds of the entries that may be it.
_TOLD: Final = {
    "upgrade denied": (journal.FAILED, journal.DENIED_UPGRADE),
    "upgrade granted": (journal.SWAPPED,),
    "late arrival": (journal.SWAPPED,),
}
# How many cases of a condition are looked at.
_MOST_CASES: Final = 64


class Verdict(NamedTuple):
    """What was decided: the rows of a shortest schedule, or none where there is no schedule; or, where it was not decided, why, and how many rows each schedule
    has at least."""

    rows: Rows | None
    said: str
    decided: bool
    fewest: int = 0


class Looked(NamedTuple):
    """The rows that were looked for, if they were found, and how many states were looked at."""

    rows: Rows | None
    states: int


def can_decide(wanted: Condition, space: Space) -> bool:
    """Whether an exploration decides something of a condition: of each of its cases a part is over states of one lock, or is that a row does something, and all
    calls may be made."""
    fits = space.nodes <= MOST_NODES and space.fan <= MOST_FAN and space.threads <= MOST_THREADS
    return fits and space.wanted is None and space.till is None and (_is_decided(wanted) or all(_parts(wanted)))


def _is_decided(wanted: Condition) -> bool:
    """Whether an exploration decides it, whole."""
    return is_of_states(wanted) or _event(wanted) is not None


def _parts(wanted: Condition) -> list[list[Condition]]:
    """Of each case of a condition what an exploration decides by itself: what a state is to be, and the events that are to have been."""
    parts: list[list[Condition]] = []
    for case in cases(wanted, _MOST_CASES + 1):
        states = tuple(comparison for comparison in case if is_of_states(comparison))
        joined: list[Condition] = [Join("and", states)] if len(states) > 1 else list(states)
        parts.append(joined + [comparison for comparison in case if _event(comparison) is not None])
    # Of more cases nothing is said.
    return parts if len(parts) <= _MOST_CASES else [[]]


def is_of_states(wanted: Condition) -> bool:
    """Whether a condition says something of the first lock's state alone, failed swaps aside."""
    return all(quantity.what in _SHOWN and quantity.lock == 0 for quantity in condition.quantities(wanted))


def _event(wanted: Condition) -> Quantity | None:
    """What a row is to do, where that is all that a condition says."""
    if isinstance(wanted, Comparison) and wanted.is_bare and wanted.left.lock == 0 and _kinds(wanted.left):
        return wanted.left
    return None


def _kinds(quantity: Quantity) -> tuple[int, ...]:
    """The kinds of the entries of rows that a quantity may count."""
    return quantity.kinds if quantity.what == "event" else _TOLD.get(quantity.what, ())


def decide(wanted: Condition, space: Space, memory: int, seconds: float, jobs: int) -> Verdict:
    """Decides a condition, where the memory and about so many seconds are enough."""
    begun = time.monotonic()
    with Status(sys.stderr) as status:
        explored = explore(space.nodes, space.fan, space.threads, memory, seconds, lambda found, passed: status.show(rate_text(found, passed)))
    if not explored.complete:
        short = "they do not fit the memory (--memory)" if explored.in_time else f"exploring them takes more than {seconds:g} s (--time)"
        return Verdict(None, f"{explored.sizes} has more than {explored.states:,} states, and {short}", False)
    until = begun + seconds
    if not _is_decided(wanted):
        return _by_parts(explored, wanted, jobs, until)
    looked = _first(explored, wanted, jobs, until)
    if looked.rows is not None:
        return Verdict(looked.rows, f"the shortest of all on {explored.sizes}, which has {explored.states:,} states", True)
    if looked.states < explored.states:
        return _too_long(explored, looked, seconds)
    return Verdict(None, f"impossible on {explored.sizes}: {_none(wanted)} of all {explored.states:,} states", True)


def _by_parts(explored: Exploration, wanted: Condition, jobs: int, until: float) -> Verdict:
    """Decides the parts of a condition by themselves."""
    seconds, fewest = until - time.monotonic(), list[int]()
    said: list[str] = []
    for parts in _parts(wanted):
        most = 0
        for part in parts:
            looked = _first(explored, part, jobs, until)
            if looked.rows is not None:
                most = max(most, len(looked.rows))
            elif looked.states < explored.states:
                return _too_long(explored, looked, seconds)
            else:
                said.append(f"'{part}' in {_none(part)} of all {explored.states:,} states")
                break
        else:
            fewest.append(most)
    if not fewest:
        return Verdict(None, f"impossible on {explored.sizes}: {'; and '.join(dict.fromkeys(said))}", True)
    return Verdict(None, "an exploration does not tell what was before a state", False, min(fewest))


def _none(wanted: Condition) -> str:
    return "none" if _event(wanted) is None else "no row"


def _too_long(explored: Exploration, looked: Looked, seconds: float) -> Verdict:
    rows = rows_text(len(explored.schedule(looked.states - 1).rows))
    return Verdict(None, f"{seconds:.3g} s (--time) were enough for {looked.states:,} of {explored.states:,} states, those of up to {rows}", False)


def _first(explored: Exploration, wanted: Condition, jobs: int, until: float) -> Looked:
    """The fewest rows after which a condition holds that an exploration decides; they are looked for until a time."""
    event = _event(wanted)
    with Progress(explored.states, sys.stderr, f"looking at {explored.states:,} states") as progress:
        for end, rows in _looked(explored, wanted, jobs) if event is None else _asked(explored, event, jobs):
            if rows is not None or time.monotonic() > until:
                return Looked(rows, end)
            progress.show(end)
    return Looked(None, explored.states)


def _looked(explored: Exploration, wanted: Condition, jobs: int) -> Iterator[tuple[int, Rows | None]]:
    """How many states were looked at, and the rows that lead to the first of them in which the condition holds."""
    known: dict[bytes, bool] = {}
    for part in explored.parts(jobs):
        first: int | None = None
        for lines, seen in part.shown.items():
            if lines not in known:
                known[lines] = wanted.holds(explored.history(seen.first))
            if known[lines] and (first is None or seen.first < first):
                first = seen.first
        yield part.end, None if first is None else explored.schedule(first).rows


def _asked(explored: Exploration, event: Quantity, jobs: int) -> Iterator[tuple[int, Rows | None]]:
    """How many states were looked at, and the rows that lead to the first of them behind which a row is the event, with that row."""
    return explored.over(partial(_first_event, event), jobs)


def _first_event(event: Quantity, opened: Opened, first: int, end: int) -> Rows | None:
    """The same of the states from one to another."""
    for state in range(first, end):
        for asked in opened.asked(state):
            if _may_be(event, asked):
                history = opened.history(state)
                longer = history.then(asked.row)
                if event.value(longer) > event.value(history):
                    return longer.rows
    return None


def _may_be(event: Quantity, asked: Asked) -> bool:
    """Whether a row may be the event, by its entry."""
    if asked.entry.kind not in _kinds(event) or event.thread not in (None, asked.row.thread):
        return False
    return asked.entry.place > journal.ROOT if event.what == "late arrival" else event.number in (None, asked.entry.place)
