"""Random schedules of wanted calls, drawn by asking the library.

Turns are drawn one after the other. At its turn a thread in a call goes on with it, and one at rest begins the next call that it wants; the turn of one that
sleeps, or wants nothing more, is passed over. Which of these a thread is, the library's sheets say.

A sheet for each row would do, and take long. So rows are drawn ahead as if nobody's call ended and nobody fell asleep or woke, and the library says how far
that was so. Where a call has ended, going on with it is refused with 7, and the sheet shows the state before that row. Where somebody fell asleep or woke,
the rows behind the one that did it are dropped. From there on it is drawn again, with the same turns: the schedule is the one that a sheet for each row gives.
"""

from __future__ import annotations

from collections.abc import Iterable
from itertools import islice
from typing import Final

from . import journal, orders
from .errors import BenchError
from .native import Library
from .orders import GO_ON
from .schedule import HEAD, Schedule
from .site import MOST_ROWS
from .sweep_standings import Standings

# Turns drawn ahead. With fewer the library is asked more often, with more most rows are drawn in vain; from 32 to 128 it takes about the same time.
_AHEAD: Final = 64
# Who sleeps changes in rows of these kinds: a thread that joined the queue sleeps from its release of the mutex on, until another wakes it.
_STIRRING: Final = (journal.RELEASED_MUTEX, journal.WOKE)


def drawn_schedule(wanted: Schedule, turns: Iterable[int], library: Library, ahead: int = _AHEAD, most: int = MOST_ROWS) -> Schedule:
    """The schedule in which threads make their wanted calls at the turns given.

    It ends when nobody can move, when no turn is left, or after ``most`` rows. ``ahead`` is the number of turns drawn ahead; what is drawn does not depend on it.
    """
    return Schedule.from_bytes(drawn_file(wanted.to_bytes(), turns, library, ahead, most))


def drawn_file(wanted: bytes, turns: Iterable[int], library: Library, ahead: int = _AHEAD, most: int = MOST_ROWS) -> bytes:
    """The same with files."""
    drawing = _Drawing(wanted, library, most)
    coming = iter(turns)
    undecided: list[int] = []
    while drawing.can_go_on():
        undecided += islice(coming, ahead - len(undecided))
        if not undecided:
            break
        del undecided[: drawing.take(undecided)]
    return drawing.file()


class _Drawing:
    """The rows drawn so far, all taken, and how the library's sheet of them shows the threads."""

    def __init__(self, wanted: bytes, library: Library, most: int) -> None:
        self.threads = bytearray()
        self.orders = bytearray()
        self._library = library
        self._most = most
        self._sizes = wanted[:3]
        threads, orders = wanted[HEAD : (HEAD + len(wanted)) // 2], wanted[(HEAD + len(wanted)) // 2 :]
        for number, thread in enumerate(threads):
            if thread >= wanted[2]:
                raise BenchError(f"there is no thread {thread}", f"row {number}")
        # The calls that each thread still wants, the next one last.
        self._calls: list[list[int]] = [[] for _ in range(wanted[2])]
        for thread, order in zip(reversed(threads), reversed(orders)):
            self._calls[thread].append(order)
        self._ask()
        if not self._shown.threads:
            raise BenchError(f"a schedule of these sizes is refused with {self._shown.answer}")

    def can_go_on(self) -> bool:
        """Whether there is room for a row, and a thread to make it."""
        return len(self.threads) < self._most and any(order is not None for order in self._due())

    def take(self, turns: list[int]) -> int:
        """Takes rows at these turns, the first of them at least, and gives the number of turns that are decided thereby."""
        taken, asleep, due = len(self.threads), self._shown.asleep, self._due()
        # The place of each row among the turns.
        places: list[int] = []
        for place, thread in enumerate(turns):
            order = due[thread]
            if order is not None:
                places.append(place)
                self.threads.append(thread)
                self.orders.append(order)
                due[thread] = GO_ON
        if not places:
            return len(turns)
        self._cut(self._most)
        kinds = self._ask()
        end = self._shown.taken
        if end == taken:
            call = orders.words(self.orders[taken])
            raise BenchError(f"thread {self.threads[taken]} wants '{call}', which is refused with {self._shown.answer}", f"row {taken}")
        self._cut(end)
        if journal.WOKE in kinds[taken:] or self._shown.asleep != asleep:
            end = 1 + next((row for row in range(taken, end) if kinds[row] in _STIRRING), taken)
            self._cut(end)
            self._ask()
        for thread, order in zip(self.threads[taken:], self.orders[taken:]):
            if order != GO_ON:
                self._calls[thread].pop()
        return places[end - taken - 1] + 1

    def _due(self) -> list[int | None]:
        """The order of each thread's next row; None where it sleeps or wants nothing more."""
        due: list[int | None] = []
        for calls, standing in zip(self._calls, self._shown.threads):
            match standing:
                case b"calling":
                    due.append(GO_ON)
                case b"asleep":
                    due.append(None)
                case _:
                    due.append(calls[-1] if calls else None)
        return due

    def _cut(self, rows: int) -> None:
        del self.threads[rows:], self.orders[rows:]

    def file(self) -> bytes:
        """The file of the rows."""
        return self._sizes + len(self.threads).to_bytes(2, "little") + self.threads + self.orders

    def _ask(self) -> bytes:
        """Has the library run the rows, and gives the kinds of those taken."""
        ran = self._library.bench_sheet(self.file(), 2 * MOST_ROWS)
        self._shown = Standings.parse(ran.sheet)
        return ran.journal[: self._shown.taken]
