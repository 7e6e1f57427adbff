"""Texts of schedules that say what is meant: ``go until done``, ``expect root open``.

How many rows ``go until`` stands for, and whether what is expected is so, the library is asked; a text without either is a schedule as it stands.
"""

from __future__ import annotations

from collections.abc import Iterable
from dataclasses import dataclass
from typing import Final, NamedTuple

from . import condition, journal, orders
from .condition import Condition
from .errors import BenchError, LibraryError, NotationError
from .history import MOST_ROWS, History
from .native import Library, load
from .reader import line_and_column
from .schedule import Row, Schedule, rows_text

#: What ``go until`` can have behind it, beside a condition in brackets.
UNTIL: Final = ("done", "asleep", "reading", "writing", "idle")


@dataclass(frozen=True, slots=True)
class Until:
    """``go until``: one of ``UNTIL``, or a condition; and its words."""

    words: str
    met: Condition | None = None


@dataclass(frozen=True, slots=True)
class Expect:
    """``expect``: a condition, and its words."""

    met: Condition
    words: str


@dataclass(frozen=True, slots=True)
class Refused:
    """``expect refused``: the row before is refused, with this number if one is named."""

    number: int | None


class Item(NamedTuple):
    """A thread's order, its ``go until``, or what is expected; and its place in the text."""

    what: int | Until | Expect | Refused
    place: int
    thread: int = 0


class Read(NamedTuple):
    """What a text stands for: the schedule, the place of each row, and what is expected and not so, each with its place."""

    schedule: Schedule
    places: tuple[str, ...]
    unmet: tuple[NotationError, ...]


@dataclass(frozen=True, slots=True)
class Script:
    """A schedule's text, item by item."""

    nodes: int
    fan: int
    threads: int
    items: tuple[Item, ...]
    text: str
    name: str

    def asks(self) -> bool:
        """Whether the library has to be asked."""
        return any(not isinstance(item.what, int) for item in self.items)

    def check_calls(self) -> None:
        """Raises at the first item that stands in no file of calls, plain or wanted: their rows are whole calls."""
        for item in self.items:
            if not isinstance(item.what, int):
                raise NotationError("'go until' and 'expect' are for schedules only", self.name, *line_and_column(self.text, item.place))

    def read(self, till: bytes | None = None, library: Library | None = None) -> Read:
        """The schedule; the library is asked where the text has ``go until`` or ``expect``, with this till beside it."""
        return _Reading(self, till, library).read()

    def wheres(self, places: Iterable[int]) -> dict[int, str]:
        """Places of the text, each as ``FILE:LINE:COLUMN``. The text is gone through once for all of them."""
        found: dict[int, str] = {}
        line, newline, before = 1, -1, 0
        for place in sorted(set(places)):
            line += self.text.count("\n", before, place)
            newline = max(newline, self.text.rfind("\n", before, place))
            before = place
            found[place] = f"{self.name}:{line}:{place - newline}"
        return found


class _Reading:
    """Makes the schedule of a text."""

    def __init__(self, script: Script, till: bytes | None, library: Library | None) -> None:
        self._script = script
        self._till = till
        self._library = library
        self._rows: list[Row] = []
        self._places: list[int] = []
        self._unmet: list[NotationError] = []

    def read(self) -> Read:
        for item in self._script.items:
            match item.what:
                case int(order):
                    self._append(Row(item.thread, order), item.place)
                case Until():
                    self._go(item.thread, item.what, item.place)
                case Expect():
                    self._expect(item.what, item.place)
                case Refused():
                    self._expect_refused(item.what, item.place)
        where = self._script.wheres(self._places)
        return Read(self._schedule(), tuple(where[place] for place in self._places), tuple(self._unmet))

    def _append(self, row: Row, place: int) -> None:
        self._rows.append(row)
        self._places.append(place)

    def _schedule(self) -> Schedule:
        return Schedule(self._script.nodes, self._script.fan, self._script.threads, tuple(self._rows))

    def _error(self, what: str, place: int) -> NotationError:
        return NotationError(what, self._script.name, *line_and_column(self._script.text, place))

    def _history(self, place: int) -> History:
        """The history of the rows so far; one that is refused is in it no more."""
        library = self._library or load()
        try:
            return History(self._schedule().to_bytes()[:3], tuple(self._rows), self._till, library)
        except LibraryError:
            raise
        except BenchError as error:
            raise self._error(error.what, place) from None

    def _refusal(self, history: History) -> str:
        taken = len(history.rows)
        (where,) = self._script.wheres([self._places[taken]]).values()
        return f"row {taken} ({where}) is refused with {history.answer}"

    def _go(self, thread: int, until: Until, place: int) -> None:
        """Appends the rows that a thread goes on until something is so."""
        history = self._history(place)
        if history.answer:
            raise self._error(f"{self._refusal(history)}, so the rows of 'go until' cannot be counted", place)
        if thread >= history.threads:
            raise self._error(f"there is no thread {thread}", place)
        begun = len(history.rows)
        while not self._is_met(thread, until, history, place):
            rows = rows_text(len(history.rows) - begun)
            if len(history.rows) == MOST_ROWS:
                raise self._error(f"never reached '{until.words}': the bench takes no more than {MOST_ROWS} rows, after {rows} of 'go'", place)
            longer = history.then(Row(thread, orders.GO_ON))
            why = None if self._is_met(thread, until, longer, place) else self._ends(thread, history, longer)
            if why is not None:
                raise self._error(f"never reached '{until.words}': {why}, after {rows} of 'go'", place)
            history = longer
            self._append(Row(thread, orders.GO_ON), place)

    def _is_met(self, thread: int, until: Until, history: History, place: int) -> bool:
        if until.met is not None:
            self._check(until.met, history, place)
            return until.met.holds(history)
        standings = [lock.threads[thread].standing for lock in history.end.locks]
        if until.words == "done":
            return "calling" not in standings and "asleep" not in standings
        # The lock of the thread's latest call.
        second = next((row.order >= orders.SECOND for row in reversed(history.rows) if row.thread == thread and row.order != orders.GO_ON), False)
        return standings[int(second)] == until.words

    def _ends(self, thread: int, history: History, longer: History) -> str | None:
        """Why going on comes to nothing, if it does."""
        if longer.answer:
            return f"the call of thread {thread} is over"
        if longer.kinds[-1] == journal.HELD_UP:
            lock = longer.entry(-1).lock
            asleep = history.end.locks[lock].threads[thread].standing == "asleep"
            return f"thread {thread} is asleep" if asleep else f"thread {thread} is held up at the mutex that thread {history.end.locks[lock].queue.mutex} has"
        return None

    def _check(self, met: Condition, history: History, place: int) -> None:
        try:
            condition.check(met, history)
        except BenchError as error:
            raise self._error(error.what, place) from None

    def _expect(self, expected: Expect, place: int) -> None:
        history = self._history(place)
        self._check(expected.met, history, place)
        if history.answer:
            self._unmet.append(self._error(f"expect failed: '{expected.words}', but {self._refusal(history)}", place))
        elif not expected.met.holds(history):
            after = f"after {rows_text(len(history.rows))} {condition.told(expected.met, history)}"
            self._unmet.append(self._error(f"expect failed: '{expected.words}', but {after}", place))

    def _expect_refused(self, expected: Refused, place: int) -> None:
        history = self._history(place)
        wanted = "a refusal" if expected.number is None else f"a refusal with {expected.number}"
        if history.answer == 0:
            self._unmet.append(self._error(f"expect failed: {wanted}, but all {rows_text(len(history.rows))} are taken", place))
        elif len(history.rows) + 1 != len(self._rows) or expected.number not in (None, history.answer):
            self._unmet.append(self._error(f"expect failed: {wanted} of row {len(self._rows) - 1}, but {self._refusal(history)}", place))
