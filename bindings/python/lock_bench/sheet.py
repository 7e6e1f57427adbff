"""Sheets as values: what the library prints of a run, parsed, and printed back byte for byte.

A sheet has the answer line, then the lines of each lock (none after a refused file, one lock or two), then the rooms' lines where there is a till:

    answer R at K
    root DIRECT TREE open|closed        (the plain engine: root COUNT open|closed)
    node I COUNT                        (nodes 1 to N - 1)
    queue free|THREAD GROUPS WRITERS
    thread I STANDING TICKET|- FAILURES
    room I BALANCE
"""

from __future__ import annotations

import re
from dataclasses import dataclass
from functools import lru_cache
from itertools import count
from typing import Final

from .errors import BenchError

#: The standings of a thread.
STANDINGS: Final = ("idle", "reading", "writing", "calling", "asleep")

#: What each refusal says of the file or of the row.
REFUSALS: Final = {
    1: "the file is shorter than its sizes",
    2: "a size is out of range",
    3: "the file's length does not fit its number of rows",
    4: "the buffer for the journal is too short",
    5: "there is no such thread",
    6: "there is no such order",
    7: "the order does not suit the thread",
    9: "the buffer for the sheet is too short",
    10: "the till file's sizes, length or room numbers are wrong",
}
#: Those of a row; the others are of the file, the till or a buffer.
ROW_REFUSALS: Final = (5, 6, 7)


@dataclass(frozen=True, slots=True)
class ThreadLine:
    """A thread: its standing (one of ``STANDINGS``), the node of its ticket while it reads, its failed swaps."""

    standing: str
    ticket: int | None
    failures: int

    def line(self, number: int) -> str:
        """The sheet's line of the thread of this number."""
        return f"thread {number} {self.standing} {_or(self.ticket, '-')} {self.failures}"


@dataclass(frozen=True, slots=True)
class Root:
    """The root word: arrivals straight at it, arrivals from nodes (None in the plain engine, which has one number), and the flag."""

    direct: int
    tree: int | None
    closed: bool

    @property
    def count(self) -> int:
        """All arrivals: the surplus."""
        return self.direct + (self.tree or 0)

    def line(self) -> str:
        """The sheet's line."""
        counts = f"{self.direct}" if self.tree is None else f"{self.direct} {self.tree}"
        return f"root {counts} {'closed' if self.closed else 'open'}"


@dataclass(frozen=True, slots=True)
class Queue:
    """The thread that has the mutex, or None where it is free; the groups that wait; the writers among them."""

    mutex: int | None
    groups: int
    writers: int

    def line(self) -> str:
        """The sheet's line."""
        return f"queue {_or(self.mutex, 'free')} {self.groups} {self.writers}"


@dataclass(frozen=True, slots=True)
class LockState:
    """A lock: its root, the counts of the nodes 1 to N - 1 in order, its queue, and each thread's standing in it."""

    root: Root
    nodes: tuple[int, ...]
    queue: Queue
    threads: tuple[ThreadLine, ...]

    def lines(self) -> list[str]:
        """The sheet's lines of this lock."""
        return [
            self.root.line(),
            *(f"node {number} {value}" for number, value in enumerate(self.nodes, 1)),
            self.queue.line(),
            *(thread.line(number) for number, thread in enumerate(self.threads)),
        ]


@dataclass(frozen=True, slots=True)
class Sheet:
    """A sheet: the refusal number or 0, the rows taken, the locks, and the rooms' balances where there is a till."""

    answer: int
    taken: int
    locks: tuple[LockState, ...] = ()
    rooms: tuple[int, ...] = ()

    @classmethod
    def parse(cls, sheet: bytes) -> Sheet:
        """The sheet that these bytes are; an error names the first line that is none of a sheet."""
        lines = sheet_lines(sheet)
        answer, taken = answer_of(lines[0])
        at = 1
        locks: list[LockState] = []
        while _is(lines, at, b"root "):
            root = _root(lines[at], at + 1)
            nodes_end = _run(lines, at + 1, b"node ")
            nodes = tuple(map(_node, lines[at + 1 : nodes_end], count(1), count(at + 2)))
            if not _is(lines, nodes_end, b"queue "):
                raise _misplaced(lines, nodes_end, "a queue line")
            queue = _queue(lines[nodes_end], nodes_end + 1)
            end = _run(lines, nodes_end + 1, b"thread ")
            threads = tuple(map(_thread, lines[nodes_end + 1 : end], count(0), count(nodes_end + 2)))
            locks.append(LockState(root, nodes, queue, threads))
            at = end
        end = _run(lines, at, b"room ")
        rooms = tuple(map(_room, lines[at:end], count(0), count(at + 1)))
        if end != len(lines):
            raise _misplaced(lines, end, "no further line" if rooms else "a lock's or a room's line")
        return cls(answer, taken, tuple(locks), rooms)

    def to_bytes(self) -> bytes:
        """The sheet's bytes."""
        lines = [f"answer {self.answer} at {self.taken}"]
        for lock in self.locks:
            lines += lock.lines()
        lines += (f"room {number} {balance}" for number, balance in enumerate(self.rooms))
        return ("\n".join(lines) + "\n").encode("ascii")


def _or(value: int | None, none: str) -> str:
    return none if value is None else str(value)


_NUMBER: Final = rb"(0|[1-9][0-9]*)"
_ANSWER: Final = re.compile(rb"answer %b at %b" % (_NUMBER, _NUMBER))
_ROOT: Final = re.compile(rb"root %b(?: %b)? (open|closed)" % (_NUMBER, _NUMBER))
_NODE: Final = re.compile(rb"node %b %b" % (_NUMBER, _NUMBER))
_QUEUE: Final = re.compile(rb"queue (?:free|%b) %b %b" % (_NUMBER, _NUMBER, _NUMBER))
_THREAD: Final = re.compile(rb"thread %b (%b) (?:-|%b) %b" % (_NUMBER, "|".join(STANDINGS).encode(), _NUMBER, _NUMBER))
_ROOM: Final = re.compile(rb"room %b %b" % (_NUMBER, _NUMBER))

# Most lines of a run's sheets have been seen before, so each line is parsed once. Line numbers are for errors, which are not kept.
_SEEN: Final = 1 << 15


def sheet_lines(sheet: bytes) -> list[bytes]:
    """The lines of a sheet, at least one, without their newlines."""
    lines = sheet.split(b"\n")
    if lines.pop() != b"" or not lines:
        raise BenchError("the last line has no newline", f"sheet, line {len(lines) + 1}")
    return lines


def answer_of(line: bytes) -> tuple[int, int]:
    """The refusal number and the rows taken in a sheet's first line."""
    found = _match(_ANSWER, line, 1)
    return int(found[1]), int(found[2])


def _is(lines: list[bytes], at: int, start: bytes) -> bool:
    return at < len(lines) and lines[at].startswith(start)


def _run(lines: list[bytes], at: int, start: bytes) -> int:
    """Where the lines that begin so, from ``at`` on, end."""
    for end in range(at, len(lines)):
        if not lines[end].startswith(start):
            return end
    return len(lines)


def _misplaced(lines: list[bytes], at: int, due: str) -> BenchError:
    found = f"'{_shown(lines[at])}'" if at < len(lines) else "the end"
    return BenchError(f"expected {due}, found {found}", f"sheet, line {at + 1}")


def _shown(line: bytes) -> str:
    return line[:80].decode("ascii", "backslashreplace")


def _match(pattern: re.Pattern[bytes], line: bytes, place: int) -> re.Match[bytes]:
    found = pattern.fullmatch(line)
    if found is None:
        raise BenchError(f"not a line of a sheet: '{_shown(line)}'", f"sheet, line {place}")
    return found


def _numbered(pattern: re.Pattern[bytes], line: bytes, number: int, place: int) -> re.Match[bytes]:
    """Matches a line whose first field is this number."""
    found = _match(pattern, line, place)
    if int(found[1]) != number:
        raise BenchError(f"expected number {number}, found '{_shown(line)}'", f"sheet, line {place}")
    return found


def _optional(field: bytes | None) -> int | None:
    return None if field is None else int(field)


@lru_cache(_SEEN)
def _root(line: bytes, place: int) -> Root:
    found = _match(_ROOT, line, place)
    return Root(int(found[1]), _optional(found[2]), found[3] == b"closed")


@lru_cache(_SEEN)
def _node(line: bytes, number: int, place: int) -> int:
    return int(_numbered(_NODE, line, number, place)[2])


@lru_cache(_SEEN)
def _queue(line: bytes, place: int) -> Queue:
    found = _match(_QUEUE, line, place)
    return Queue(_optional(found[1]), int(found[2]), int(found[3]))


@lru_cache(_SEEN)
def _thread(line: bytes, number: int, place: int) -> ThreadLine:
    found = _numbered(_THREAD, line, number, place)
    return ThreadLine(found[2].decode("ascii"), _optional(found[3]), int(found[4]))


@lru_cache(_SEEN)
def _room(line: bytes, number: int, place: int) -> int:
    return int(_numbered(_ROOM, line, number, place)[2])
