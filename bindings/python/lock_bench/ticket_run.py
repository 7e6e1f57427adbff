"""Runs of the ticket lock: the states that they go through, and what each row did, in words.

The state after row i is the library's sheet of the first i rows. The sheet does not name the tickets that threads have: a thread's is the number that the sheet
showed for the next ticket when the thread took it.
"""

from __future__ import annotations

from argparse import ArgumentParser, Namespace
from collections.abc import Iterator
from dataclasses import dataclass
from itertools import pairwise
from pathlib import Path

from . import inputs, ticket
from .native import Library, load
from .reader import Reader
from .schedule import Row
from .sheet import REFUSALS
from .ticket import TicketSchedule, TicketSheet


@dataclass(frozen=True, slots=True)
class TicketRun:
    """A run: the schedule, the sheet at its end, and the states after 0, 1, .. rows taken."""

    schedule: TicketSchedule
    sheet: TicketSheet
    states: tuple[TicketSheet, ...]

    @property
    def rows(self) -> tuple[Row, ...]:
        """The rows taken."""
        return self.schedule.rows[: self.sheet.taken]


def run(schedule: TicketSchedule, library: Library | None = None) -> TicketRun:
    """Runs a file of the ticket lock."""
    called = library or load()

    def sheet_of(first: TicketSchedule) -> TicketSheet:
        return TicketSheet.parse(called.ticket_sheet(first.to_bytes()))

    end = sheet_of(schedule)
    count = 0 if end.ticket is None else end.taken + 1
    return TicketRun(schedule, end, tuple(sheet_of(schedule.first(i)) for i in range(count)))


def tickets(run: TicketRun) -> Iterator[tuple[int | None, ...]]:
    """The ticket of each thread, if it has one, after 0, 1, .. rows."""
    has: list[int | None] = [None] * len(run.sheet.threads)
    yield tuple(has)
    for row, (before, after) in zip(run.rows, pairwise(run.states)):
        if row.order == ticket.TAKE:
            has[row.thread] = before.ticket
        elif after.threads[row.thread] == "idle":
            has[row.thread] = None
        yield tuple(has)


def rows_told(run: TicketRun) -> Iterator[tuple[str, list[str]]]:
    """What each row taken did, in words, and what changed."""
    for row, has, (before, after) in zip(run.rows, list(tickets(run))[1:], pairwise(run.states)):
        yield _described(row, has[row.thread], before, after), _changes(before, after)


def _described(row: Row, has: int | None, before: TicketSheet, after: TicketSheet) -> str:
    if row.order == ticket.TAKE:
        return f"takes ticket {before.ticket}"
    if row.order == ticket.ADVANCE:
        return f"advances the grant to {after.grant}"
    return f"compares ticket {has} with the grant {after.grant}: {'holds' if after.threads[row.thread] == 'holding' else 'waits on'}"


def waited(row: Row, after: TicketSheet) -> bool:
    """Whether a row compared in vain."""
    return row.order == ticket.COMPARE and after.threads[row.thread] != "holding"


def _changes(before: TicketSheet, after: TicketSheet) -> list[str]:
    """All that differs between two sheets, but for the answer line."""
    named: list[tuple[str, object, object]] = [("ticket", before.ticket, after.ticket), ("grant", before.grant, after.grant)]
    named += ((f"thread {number}", was, now) for number, (was, now) in enumerate(zip(before.threads, after.threads)))
    return [f"{name}: {was} -> {now}" for name, was, now in named if was != now]


def refusal_text(run: TicketRun) -> str:
    """Why the row at which a run ended was refused, as far as the sheet tells."""
    answer, row, threads = run.sheet.answer, run.schedule.rows[run.sheet.taken], run.sheet.threads
    why = {5: f"T is {len(threads)}", 7: f"thread {row.thread} is {threads[row.thread]}"} if row.thread < len(threads) else {5: f"T is {len(threads)}"}
    return f"refused with {answer}: {REFUSALS[answer]}" + (f" ({why[answer]})" if answer in why else "")


def add_ticket(parser: ArgumentParser) -> None:
    """Adds the argument that says that the file is one of the ticket lock."""
    parser.add_argument("--ticket", action="store_true", help="FILE is of the ticket lock, as is one whose name or text says so (.tickets, `tickets`)")


def is_meant(arguments: Namespace) -> bool:
    """Whether the input is a file of the ticket lock: by the argument, by its name, or by the word that a text begins with."""
    if arguments.ticket or Path(inputs.input_name(arguments).removesuffix(inputs.TEXT)).suffix == ".tickets":
        return True
    name = inputs.input_name(arguments)
    # Standard input can be read once.
    return inputs.is_text(arguments) and name != "<standard input>" and Reader(inputs.input_text(arguments), name).next.text == "tickets"


def run_of(arguments: Namespace) -> tuple[TicketSheet, TicketRun | None]:
    """The sheet of the run that the arguments name, and the run; there is none where the file is refused as a whole."""
    if arguments.dispatch or arguments.till is not None:
        raise inputs.UsageError("the ticket lock has no dispatcher and no till: --dispatch and --till are not for it")
    file = inputs.input_bytes(arguments, tickets=True)
    sheet = load().ticket_sheet(file)
    inputs.explain_refusal(arguments, file, sheet, kind="tickets")
    end = TicketSheet.parse(sheet)
    arguments.ended = end.answer, end.taken
    return end, None if end.ticket is None else run(TicketSchedule.from_bytes(file))
