"""What a schedule cost: read from its rows, its journal and the library's sheets, and from nothing else.

A schedule is a window: it shows what was done in its rows. A call is finished if its thread is at rest afterwards. One that the end of the schedule cuts is
no call finished, though its rows were made. A lock that is still waited for at the end is not got: the rows for which it was waited for count as waited, and
the lock as one that is waited for.
"""

from __future__ import annotations

from typing import NamedTuple

from . import journal, orders
from .errors import BenchError
from .native import Library
from .schedule import HEAD, Schedule, first_rows
from .sweep_standings import Standings


class Waits(NamedTuple):
    """The waits for locks of one kind. A wait is the rows, of all threads, behind the call's first row up to the one from which on the lock is held."""

    #: The locks that were got, and the longest of their waits.
    got: int = 0
    longest: int = 0
    #: The locks that are still waited for at the end, and the longest wait among them until then.
    waiting: int = 0
    longest_waiting: int = 0
    #: The rows of all these waits, over or not.
    rows: int = 0


class Cost(NamedTuple):
    """What a schedule cost."""

    #: The calls finished, and those that the end cut.
    calls: int
    cut: int
    #: The rows, and of these: failed swaps, rows on the root word, and rows held up.
    rows: int
    failed: int
    root: int
    held_up: int
    #: The waits for write-locks and for read-locks.
    writer: Waits
    reader: Waits


def cost_of(schedule: Schedule, library: Library) -> Cost:
    """What a schedule of one lock cost."""
    return cost_of_file(schedule.to_bytes(), library)


def cost_of_file(file: bytes, library: Library) -> Cost:
    """The same of a schedule's file."""
    ran = library.bench_sheet(file)
    shown = Standings.parse(ran.sheet)
    if shown.answer:
        raise BenchError(f"the schedule is refused with {shown.answer}", f"row {shown.taken}" if shown.threads else None)
    kinds, words = ran.journal[: shown.taken], ran.journal[shown.taken :]
    threads, begun = file[HEAD:], file[HEAD + shown.taken :]
    calls = _Calls(len(shown.threads))
    for number, (thread, order, kind) in enumerate(zip(threads, begun, kinds)):
        if kind == journal.BEGUN:
            calls.begin(thread, order, number)
        calls.moved[thread] = number
        if kind == journal.WOKE:
            before, after = (Standings.parse(library.bench_sheet(first_rows(file, rows)).sheet).asleep for rows in (number, number + 1))
            for woken in (other for other, (slept, sleeps) in enumerate(zip(before, after)) if slept and not sleeps):
                calls.moved[woken] = number
    for thread, standing in enumerate(shown.threads):
        calls.end(thread, shown.taken - 1 if standing in (b"calling", b"asleep") else None)
    return Cost(
        calls=calls.finished,
        cut=calls.cut,
        rows=len(kinds),
        failed=kinds.count(journal.FAILED),
        root=words.count(journal.ROOT),
        held_up=kinds.count(journal.HELD_UP),
        writer=calls.writer.waits(),
        reader=calls.reader.waits(),
    )


class _Calls:
    """The calls so far, and the latest of each thread: its order, its first row, and the latest row that moved it on, its thread's or the one that woke it."""

    def __init__(self, threads: int) -> None:
        self.finished = 0
        self.cut = 0
        self.writer = _Waits()
        self.reader = _Waits()
        self.moved = [0] * threads
        self._order: list[int | None] = [None] * threads
        self._begun = [0] * threads

    def begin(self, thread: int, order: int, row: int) -> None:
        """A call begins, and the one before it is over."""
        self.end(thread, None)
        self._order[thread], self._begun[thread] = order, row

    def end(self, thread: int, last: int | None) -> None:
        """The thread's latest call, if it has one, is over, or was cut at the last row."""
        order, begun = self._order[thread], self._begun[thread]
        if order is None:
            return
        if last is None:
            self.finished += 1
        else:
            self.cut += 1
        waits = self.writer if order == orders.WRITE_LOCK else self.reader if order >= orders.READ_LOCK else None
        if waits is not None and last is None:
            waits.got.append(self.moved[thread] - begun)
        elif waits is not None and last is not None:
            waits.waiting.append(last - begun)


class _Waits:
    """The waits that are over, and those that are not."""

    def __init__(self) -> None:
        self.got: list[int] = []
        self.waiting: list[int] = []

    def waits(self) -> Waits:
        got, waiting = self.got, self.waiting
        return Waits(len(got), max(got, default=0), len(waiting), max(waiting, default=0), sum(got) + sum(waiting))
