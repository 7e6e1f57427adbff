"""Runs of schedules, and the states that they go through.

The state after row i is the sheet of the first i rows, which the library prints: nothing here computes one.
"""

from __future__ import annotations

from collections.abc import Iterator
from dataclasses import dataclass

from .journal import Journal
from .native import Library, load
from .schedule import Schedule, first_rows
from .sheet import Sheet
from .till import Till


@dataclass(frozen=True, slots=True)
class Run:
    """A run: the schedule and the till, the sheet at its end, and an entry for each row taken."""

    schedule: Schedule
    till: Till | None
    sheet: Sheet
    journal: Journal


def run(schedule: Schedule, till: Till | None = None, library: Library | None = None) -> Run:
    """Runs a schedule, with the till beside it if there is one."""
    ran = (library or load()).sheet(schedule.to_bytes(), _till(till))
    sheet = Sheet.parse(ran.sheet)
    return Run(schedule, till, sheet, Journal.from_bytes(ran.journal, sheet.taken, len(schedule.rows)))


def states(schedule: Schedule, till: Till | None = None, library: Library | None = None) -> Iterator[Sheet]:
    """The states after 0, 1, .. rows taken, each the sheet of that many first rows; none where the whole file is refused."""
    library = library or load()
    file, beside = schedule.to_bytes(), _till(till)
    whole = Sheet.parse(library.sheet(file, beside).sheet)
    if not whole.locks:
        return
    for i in range(whole.taken + 1):
        yield Sheet.parse(library.sheet(first_rows(file, i), beside).sheet)


def _till(till: Till | None) -> bytes | None:
    return None if till is None else till.to_bytes()
