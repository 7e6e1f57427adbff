"""The ticket lock: its files and sheets as values.

A file has T in a byte, then the number of rows S and the start number, two bytes each, low byte first, then S thread numbers and S orders. Order 1 takes a
ticket, 0 compares it with the grant, 2 advances the grant. The sheet has the answer line, ``ticket`` and ``grant`` with their numbers, and a line
``thread I idle|near|far|holding`` for each thread.
"""

from __future__ import annotations

import re
from dataclasses import dataclass
from typing import Final

from .errors import BenchError
from .schedule import HEAD, Row, check_number, check_rows, join_rows, split_rows
from .sheet import answer_of, sheet_lines

COMPARE: Final = 0
TAKE: Final = 1
ADVANCE: Final = 2

#: The words for the orders.
ORDERS: Final = {"take": TAKE, "compare": COMPARE, "advance": ADVANCE}

#: The standings of a thread: a waiter is near while its ticket is at most 1 past the grant.
STANDINGS: Final = ("idle", "near", "far", "holding")


@dataclass(frozen=True, slots=True)
class TicketSchedule:
    """The threads, the start number and the rows of a file of the ticket lock."""

    threads: int
    start: int
    rows: tuple[Row, ...]

    def __post_init__(self) -> None:
        check_number(self.threads, "threads", 0xFF)
        check_number(self.start, "start", 0xFFFF)
        check_rows(self.rows)

    @classmethod
    def from_bytes(cls, file: bytes, name: str | None = None) -> TicketSchedule:
        """The schedule in a file's bytes; ``name`` is the file's, for errors."""
        if len(file) < HEAD:
            raise BenchError(f"not a file of the ticket lock: {len(file)} bytes, and its sizes alone take {HEAD}", name)
        count = int.from_bytes(file[1:3], "little")
        return cls(file[0], int.from_bytes(file[3:HEAD], "little"), split_rows(file, count, name, "file of the ticket lock"))

    def first(self, i: int) -> TicketSchedule:
        """The file of the first i rows."""
        return TicketSchedule(self.threads, self.start, self.rows[:i])

    def to_bytes(self) -> bytes:
        """The file's bytes."""
        return (
            bytes((self.threads,))
            + len(self.rows).to_bytes(2, "little")
            + self.start.to_bytes(2, "little")
            + join_rows(self.rows)
        )


def words(order: int) -> str:
    """The words for an order; a number that is none is ``order NUMBER``."""
    return next((word for word, number in ORDERS.items() if number == order), f"order {order}")


_COUNTER: Final = re.compile(rb"(ticket|grant) (0|[1-9][0-9]*)")
_THREAD: Final = re.compile(rb"thread (0|[1-9][0-9]*) (idle|near|far|holding)")


@dataclass(frozen=True, slots=True)
class TicketSheet:
    """A sheet of the ticket lock: ticket and grant are None, and no thread is named, after a refused file."""

    answer: int
    taken: int
    ticket: int | None = None
    grant: int | None = None
    threads: tuple[str, ...] = ()

    @classmethod
    def parse(cls, sheet: bytes) -> TicketSheet:
        """The sheet that these bytes are; an error names the first line that is none of a sheet."""
        lines = sheet_lines(sheet)
        answer, taken = answer_of(lines[0])
        if len(lines) == 1:
            return cls(answer, taken)
        counters = [_counter(lines, at, name) for at, name in ((1, b"ticket"), (2, b"grant"))]
        threads = tuple(_thread(line, number) for number, line in enumerate(lines[3:]))
        return cls(answer, taken, counters[0], counters[1], threads)

    def to_bytes(self) -> bytes:
        """The sheet's bytes."""
        lines = [f"answer {self.answer} at {self.taken}"]
        if self.ticket is not None:
            lines += [f"ticket {self.ticket}", f"grant {self.grant}"]
        lines += (f"thread {number} {standing}" for number, standing in enumerate(self.threads))
        return ("\n".join(lines) + "\n").encode("ascii")


def _counter(lines: list[bytes], at: int, name: bytes) -> int:
    found = _COUNTER.fullmatch(lines[at]) if at < len(lines) else None
    if found is None or found[1] != name:
        raise BenchError(f"expected the {name.decode()} line", f"sheet, line {at + 1}")
    return int(found[2])


def _thread(line: bytes, number: int) -> str:
    found = _THREAD.fullmatch(line)
    if found is None or int(found[1]) != number:
        raise BenchError(f"expected the line of thread {number}", f"sheet, line {number + 4}")
    return found[2].decode("ascii")
