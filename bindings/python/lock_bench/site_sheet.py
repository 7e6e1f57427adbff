"""The sheet of a site's run as values: what it cost, parsed, and printed back byte for byte.

    answer R at ROWS                                (the rows made, the warm-up's among them)
    turns USED PASSED HOLDING THINKING
    calls FINISHED UNFINISHED
    rows ROWS FAILED ROOT HELD-UP
    write-locks GOT WAITED LONGEST STILL
    read-locks GOT WAITED LONGEST STILL
    thread I FINISHED FAILED                        (threads 0 to T - 1)
"""

from __future__ import annotations

import re
from collections.abc import Sequence
from dataclasses import dataclass
from typing import Final, NamedTuple

from .errors import BenchError
from .native import Library
from .sheet import answer_of, sheet_lines


class Turns(NamedTuple):
    """The turns used: those that were passed over, and those spent holding and thinking; each other one made a row."""

    used: int
    passed: int
    holding: int
    thinking: int


class Calls(NamedTuple):
    """The calls finished, and those under way at the end."""

    finished: int
    unfinished: int


class Rows(NamedTuple):
    """The rows made, and of these failed swaps, those on the root word, and those held up at the queue's mutex."""

    made: int
    failed: int
    root: int
    held_up: int


class Waits(NamedTuple):
    """The waits for locks of one kind: locks got; rows waited in all, once for each thread that waits; the longest wait of one got; and who still waits."""

    got: int
    waited: int
    longest: int
    still: int


class ThreadCost(NamedTuple):
    """The calls that a thread finished, and its failed swaps."""

    finished: int
    failed: int


@dataclass(frozen=True, slots=True)
class Measured:
    """What was measured behind the warm-up."""

    turns: Turns
    calls: Calls
    rows: Rows
    writers: Waits
    readers: Waits
    threads: tuple[ThreadCost, ...]


@dataclass(frozen=True, slots=True)
class SiteSheet:
    """A site's sheet: the refusal number or 0, the rows made, and what was measured, which is None where the file is refused."""

    answer: int
    taken: int
    measured: Measured | None = None

    @classmethod
    def parse(cls, sheet: bytes) -> SiteSheet:
        """The sheet that these bytes are; an error names the first line that is none of a sheet."""
        lines = sheet_lines(sheet)
        answer, taken = answer_of(lines[0])
        if len(lines) == 1:
            return cls(answer, taken)
        turns, calls, rows, writers, readers = (_numbers(lines, at, name, count) for at, (name, count) in enumerate(_LINES, 1))
        first = len(_LINES) + 1
        threads = [_numbers(lines, at, f"thread {at - first}", len(ThreadCost._fields)) for at in range(first, len(lines))]
        return cls(answer, taken, Measured(Turns(*turns), Calls(*calls), Rows(*rows), Waits(*writers), Waits(*readers), tuple(map(ThreadCost._make, threads))))

    def to_bytes(self) -> bytes:
        """The sheet's bytes."""
        lines = [f"answer {self.answer} at {self.taken}"]
        if (measured := self.measured) is not None:
            parts: tuple[Sequence[int], ...] = (measured.turns, measured.calls, measured.rows, measured.writers, measured.readers)
            named = [(name, part) for (name, _), part in zip(_LINES, parts)] + [(f"thread {number}", thread) for number, thread in enumerate(measured.threads)]
            lines += (f"{name} {' '.join(map(str, part))}" for name, part in named)
        return ("\n".join(lines) + "\n").encode("ascii")


# The lines behind the answer's, each with the number of its numbers.
_LINES: Final = (
    ("turns", len(Turns._fields)),
    ("calls", len(Calls._fields)),
    ("rows", len(Rows._fields)),
    ("write-locks", len(Waits._fields)),
    ("read-locks", len(Waits._fields)),
)
_NUMBERS: Final = re.compile(rb"(?: (?:0|[1-9][0-9]*))+")


def _numbers(lines: Sequence[bytes], at: int, name: str, count: int) -> list[int]:
    """The numbers of a line, which must have this name."""
    line = lines[at] if at < len(lines) else b""
    rest = line.removeprefix(name.encode())
    numbers = rest.split()
    if rest == line or _NUMBERS.fullmatch(rest) is None or len(numbers) != count:
        raise BenchError(f"expected the {name} line", f"sheet, line {at + 1}")
    return list(map(int, numbers))


def site_run(site: bytes, turns: bytes, library: Library) -> Measured:
    """What a site file that is taken whole costs at these turns."""
    sheet = SiteSheet.parse(library.site_sheet(site, turns))
    if sheet.answer or sheet.measured is None:
        raise BenchError(f"the site is refused with {sheet.answer}", f"row {sheet.taken}" if sheet.measured else None)
    return sheet.measured
