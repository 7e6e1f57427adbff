"""Rows that were taken, and all that the library shows of them: the state after each, and what each did.

The state after row i is the library's sheet of the first i rows. It is asked for when somebody looks, and once.
"""

from __future__ import annotations

from copy import copy
from functools import cached_property
from typing import Final, NamedTuple

from .errors import BenchError
from .journal import HELD_UP, Entry
from .native import Library, load
from .schedule import HEAD, Row, Schedule, join_rows
from .sheet import REFUSALS, Sheet, answer_of
from .till import Till

#: The most rows that the bench takes.
MOST_ROWS: Final = 4096


class Asked(NamedTuple):
    """What the library says of rows behind a history: its answer, the kinds and words of the rows that it takes, and the sheet behind them."""

    answer: int
    kinds: bytes
    words: bytes
    sheet: bytes

    def entry(self, row: int) -> Entry:
        """What one of these rows does."""
        return Entry(self.kinds[row], self.words[row])


class History:
    """The rows of a schedule that were taken, with the states between them."""

    def __init__(self, sizes: bytes, rows: tuple[Row, ...], till: bytes | None, library: Library) -> None:
        """Runs the rows; those from the first refused one on are left out, and ``answer`` is its number."""
        self._sizes = sizes
        self._till = till
        self._library = library
        ran = library.sheet(_file(sizes, rows), till)
        sheet = Sheet.parse(ran.sheet)
        if not sheet.locks:
            raise BenchError(f"refused with {sheet.answer}: {REFUSALS[sheet.answer]}")
        self.answer = sheet.answer
        self.rows = rows[: sheet.taken]
        self.kinds = ran.journal[: sheet.taken]
        self.words = ran.journal[len(rows) : len(rows) + sheet.taken]
        self._sheets = {} if sheet.answer else {sheet.taken: sheet}

    @classmethod
    def of(cls, schedule: Schedule, till: Till | None = None, library: Library | None = None) -> History:
        """The history of a schedule."""
        return cls(schedule.to_bytes()[:3], schedule.rows, None if till is None else till.to_bytes(), library or load())

    def then(self, *rows: Row) -> History:
        """These rows, and more behind them."""
        longer = History(self._sizes, (*self.rows, *rows), self._till, self._library)
        known = len(self.rows)
        longer._sheets = {number: sheet for number, sheet in self._sheets.items() if number <= known} | longer._sheets
        return longer

    def first(self, rows: int) -> History:
        """The first of these rows."""
        shorter = copy(self)
        for name in ("schedule", "_joined"):
            shorter.__dict__.pop(name, None)
        shorter.answer, shorter.rows, shorter.kinds, shorter.words = 0, self.rows[:rows], self.kinds[:rows], self.words[:rows]
        return shorter

    def ask(self, *rows: Row) -> Asked:
        """What the library says of more rows behind these: one run, and no history of it."""
        threads, given = self._joined
        before, count = len(self.rows), len(self.rows) + len(rows)
        added = join_rows(rows)
        file = self._sizes + count.to_bytes(HEAD - 3, "little") + threads + added[: len(rows)] + given + added[len(rows) :]
        ran = self._library.sheet(file, self._till)
        answer, taken = answer_of(ran.sheet[: ran.sheet.index(b"\n")])
        return Asked(answer, ran.journal[before:taken], ran.journal[count + before : count + taken], ran.sheet)

    @cached_property
    def _joined(self) -> tuple[bytes, bytes]:
        """The thread numbers of the rows, and their orders."""
        joined = join_rows(self.rows)
        return joined[: len(self.rows)], joined[len(self.rows) :]

    def without_held_up(self) -> History:
        """The rows that were not held up, which come to the same state: a held-up row changes nothing."""
        return History(self._sizes, tuple(row for row, kind in zip(self.rows, self.kinds) if kind != HELD_UP), self._till, self._library)

    def state(self, rows: int) -> Sheet:
        """The state after so many rows."""
        if rows not in self._sheets:
            self._sheets[rows] = Sheet.parse(self._library.sheet(_file(self._sizes, self.rows[:rows]), self._till).sheet)
        return self._sheets[rows]

    @property
    def end(self) -> Sheet:
        """The state after all rows."""
        return self.state(len(self.rows))

    @cached_property
    def schedule(self) -> Schedule:
        """The rows taken, as a schedule."""
        nodes, fan, threads = self._sizes
        return Schedule(nodes, fan, threads, self.rows)

    def entry(self, row: int) -> Entry:
        """What a row did."""
        return Entry(self.kinds[row], self.words[row])

    @property
    def nodes(self) -> int:
        """N."""
        return self._sizes[0]

    @property
    def threads(self) -> int:
        """T."""
        return self._sizes[2]

    @cached_property
    def entries(self) -> int:
        """The entries of the till."""
        return self._till[1] if self._till and len(self._till) > 1 else 0


def _file(sizes: bytes, rows: tuple[Row, ...]) -> bytes:
    return sizes + len(rows).to_bytes(HEAD - 3, "little") + join_rows(rows)
