"""Schedule files as values.

A schedule file has the sizes N, F and T, a byte each, the number of rows S in two bytes, low byte first, then S thread numbers and S orders. Files of calls
(for the plain engine) and of wanted calls (for the dispatcher) have the same form.

Whatever a file can hold is a value here, refused or not: it is the library that refuses, by its number. What no file can hold is an error.
"""

from __future__ import annotations

from collections.abc import Iterable
from dataclasses import dataclass
from typing import Final

from .errors import BenchError
from .orders import GO_ON, SECOND
from .reader import count_text, range_text

#: The bytes before the thread numbers.
HEAD: Final = 5
#: The most rows that two bytes can name. (The bench takes 4,096.)
MOST_ROWS: Final = 0xFFFF


@dataclass(frozen=True, slots=True)
class Row:
    """One row: the thread whose turn it is, and its order."""

    thread: int
    order: int


@dataclass(frozen=True, slots=True)
class Schedule:
    """The sizes and rows of a schedule file."""

    nodes: int
    fan: int
    threads: int
    rows: tuple[Row, ...]

    def __post_init__(self) -> None:
        for name, value in (("nodes", self.nodes), ("fan", self.fan), ("threads", self.threads)):
            check_number(value, name, 0xFF)
        check_rows(self.rows)

    @classmethod
    def from_bytes(cls, file: bytes, name: str | None = None) -> Schedule:
        """The schedule in a file's bytes; ``name`` is the file's, for errors."""
        if len(file) < HEAD:
            raise BenchError(f"not a schedule: {len(file)} bytes, and its sizes alone take {HEAD}", name)
        count = int.from_bytes(file[3:HEAD], "little")
        return cls(file[0], file[1], file[2], split_rows(file, count, name, "schedule"))

    def to_bytes(self) -> bytes:
        """The file's bytes."""
        return bytes((self.nodes, self.fan, self.threads)) + len(self.rows).to_bytes(2, "little") + join_rows(self.rows)

    def first(self, i: int) -> Schedule:
        """The schedule of the first i rows."""
        if not 0 <= i <= len(self.rows):
            raise BenchError(f"there are no first {i} rows in a schedule of {len(self.rows)}")
        return Schedule(self.nodes, self.fan, self.threads, self.rows[:i])


def first_rows(file: bytes, i: int) -> bytes:
    """The file of the first i rows of a schedule file."""
    count = int.from_bytes(file[3:HEAD], "little")
    return file[:3] + i.to_bytes(2, "little") + file[HEAD : HEAD + i] + file[HEAD + count : HEAD + count + i]


def same_before(row: int) -> str:
    """What is said behind the number of a row up to which all is the same."""
    return f"; {rows_text(row)} before it the same" if row else ""


def rows_text(count: int) -> str:
    """So many rows, for a message."""
    return count_text(count, "row")


def call_of(schedule: Schedule, i: int) -> int:
    """The order that began the call which row i belongs to, without the second lock's 128; 0 where there is none."""
    thread = schedule.rows[i].thread
    for row in reversed(schedule.rows[: i + 1]):
        if row.thread == thread and row.order != GO_ON:
            return row.order % SECOND
    return GO_ON


def check_number(value: int, name: str, most: int, where: str | None = None, least: int = 0) -> None:
    """Raises unless the value is a whole number from ``least`` to ``most``."""
    if not isinstance(value, int):
        raise BenchError(f"{name} must be a whole number, not {value!r}", where)
    if not least <= value <= most:
        raise BenchError(range_text(name, value, least, most), where)


def check_rows(rows: tuple[Row, ...]) -> None:
    """Raises unless a file can hold these rows."""
    if len(rows) > MOST_ROWS:
        raise BenchError(f"{len(rows)} rows do not fit the file ({MOST_ROWS} at most)")
    try:
        join_rows(rows)
    except (TypeError, ValueError):
        for number, row in enumerate(rows):
            check_number(row.thread, "thread", 0xFF, f"row {number}")
            check_number(row.order, "order", 0xFF, f"row {number}")
        raise


def join_rows(rows: Iterable[Row]) -> bytes:
    """The two parallel arrays: all thread numbers, then all orders."""
    return bytes([row.thread for row in rows]) + bytes([row.order for row in rows])


def split_rows(file: bytes, count: int, name: str | None, kind: str) -> tuple[Row, ...]:
    """The rows behind the five bytes that a schedule, or a file of the ticket lock, begins with."""
    length = HEAD + 2 * count
    if len(file) != length:
        raise BenchError(f"not a {kind}: {len(file)} bytes, and with {count} rows it must have {length}", name)
    return tuple(map(Row, file[HEAD : HEAD + count], file[HEAD + count :]))
