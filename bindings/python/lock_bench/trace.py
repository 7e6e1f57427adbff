"""The trace of a run: a line for each row, with what it did in words and what changed.

All of it comes from the schedule, the journal and the sheets before and after each row. What a failed swap expected is what the sheets showed of the word
when the thread last read it or failed on it; where that is not known, only what the swap found is said.
"""

from __future__ import annotations

import os
import sys
from argparse import ArgumentParser, Namespace, _SubParsersAction
from collections.abc import Callable, Iterable, Iterator, Sequence
from itertools import pairwise
from typing import Final

from . import inputs, journal, orders, ticket, ticket_run
from .journal import Entry
from .run import Run, states
from .schedule import Row, Schedule, call_of
from .sheet import REFUSALS
from .sheet import LockState, Root, Sheet, ThreadLine
from .stuck import STUCK, is_stuck
from .ticket import TicketSchedule, TicketSheet
from .ticket_run import TicketRun
from .till import Till

def root_text(root: Root) -> str:
    """The root word as document 02 writes it: direct, tree, state."""
    return f"({', '.join(root.line().split()[1:])})"


def word_name(entry: Entry) -> str:
    """The name of the word of an entry, within its lock."""
    return "root" if entry.place == 0 else f"node {entry.place}"


def word_value(sheet: Sheet, entry: Entry) -> str:
    """What a sheet shows of the word of an entry, the root or a node."""
    lock = sheet.locks[entry.lock]
    return root_text(lock.root) if entry.place == 0 else str(lock.nodes[entry.place - 1])


def describe(schedule: Schedule, i: int, before: Sheet, after: Sheet, entry: Entry, expected: str | None = None) -> str:
    """What row i did, in words, from the sheets before and after it and its entry.

    ``expected`` is what a failed swap expected, if the caller knows (``descriptions`` does).
    """
    said = _describe(schedule, i, before, after, entry, expected)
    return said if entry.lock == 0 else f"second lock: {said}"


def _describe(schedule: Schedule, i: int, before: Sheet, after: Sheet, entry: Entry, expected: str | None) -> str:
    thread, order = schedule.rows[i].thread, schedule.rows[i].order
    was = before.locks[entry.lock]
    match entry.kind:
        case journal.BEGUN:
            return f"begins {_call_text(order % orders.SECOND)}"
        case journal.READ:
            return f"read {word_name(entry)} {_value(after, entry)}"
        case journal.SWAPPED:
            return f"swapped {word_name(entry)} to {word_value(after, entry)}"
        case journal.FAILED:
            remembered = "" if expected is None else f"{expected}, "
            # An upgrade whose thread reads again is over.
            denied = after.locks[entry.lock].threads[thread].standing == "reading"
            return f"swap of {word_name(entry)} failed: {remembered}found {word_value(after, entry)}{': upgrade denied' if denied else ''}"
        case journal.HELD_UP:
            if was.threads[thread].standing == "asleep":
                return "held up: asleep"
            return f"held up at the mutex that thread {was.queue.mutex} has"
        case journal.STORED:
            return f"stored {word_name(entry)} {_value(after, entry)}"
        case journal.TOOK_MUTEX:
            return "took the mutex"
        case journal.RELEASED_MUTEX:
            sleeps = after.locks[entry.lock].threads[thread].standing == "asleep"
            return "released the mutex, and sleeps" if sleeps else "released the mutex"
        case journal.CHANGED_QUEUE:
            return queue_text(call_of(schedule, i), was, after.locks[entry.lock])
        case journal.WOKE:
            return " ".join(["wakes", *map(str, woken(was, after.locks[entry.lock]))])
        case journal.DENIED_UPGRADE:
            return f"read {word_name(entry)} {_value(after, entry)}: upgrade denied"
        case journal.BOOKED:
            return f"booked entry {order - orders.BOOK}"
        case journal.REPEATED:
            return f"repeated entry {order - orders.BOOK}, booked before"
        case journal.DENIED_BOOKING:
            return f"denied entry {order - orders.BOOK}: its room's balance would fall below 0"
        case kind:
            return f"kind {kind} on word {entry.word}"


def _value(sheet: Sheet, entry: Entry) -> str:
    """A word's value behind its name: a node's count in brackets, so that the two numbers are told apart."""
    value = word_value(sheet, entry)
    return value if entry.place == 0 else f"({value})"


def _call_text(order: int) -> str:
    match order:
        case orders.WRITE_LOCK:
            return "a write-lock"
        case orders.UNLOCK:
            return "an unlock"
        case orders.UPGRADE:
            return "an upgrade"
        case orders.DOWNGRADE:
            return "a downgrade"
        case orders.READ_LOCK:
            return "a read-lock straight at the root"
        case _:
            return f"a read-lock by node {order - orders.READ_LOCK}"


def queue_text(call: int, was: LockState, now: LockState) -> str:
    """What a row did that changed the queue or found it empty, within the call that this order began."""
    if now.queue.writers > was.queue.writers:
        return "joined the queue to write"
    if now.queue.writers < was.queue.writers:
        return "took the writer who waited longest from the queue"
    if now.queue.groups > was.queue.groups:
        return "joined the queue to read"
    if now.queue.groups < was.queue.groups:
        return "took the readers from the queue"
    if call >= orders.READ_LOCK:
        return "joined the readers in the queue"
    return "found no readers in the queue" if was.queue.groups else "found the queue empty"


def woken(was: LockState, now: LockState) -> list[int]:
    """The threads that slept before and do not now."""
    return [number for number, (old, new) in enumerate(zip(was.threads, now.threads)) if old.standing == "asleep" and new.standing != "asleep"]


def changes(before: Sheet, after: Sheet) -> list[str]:
    """All that differs between two sheets of the same sizes, but for the answer line: ``node 1: 0 -> 1``."""
    changed: list[str] = []
    for number, (was, now) in enumerate(zip(before.locks, after.locks)):
        if was != now:
            lock = "" if number == 0 else "second lock's "
            changed += (f"{lock}{name}: {old} -> {new}" for name, old, new in differences(was, now))
    for number, (balance, new_balance) in enumerate(zip(before.rooms, after.rooms)):
        if balance != new_balance:
            changed.append(f"room {number}: {balance} -> {new_balance}")
    return changed


def differences(was: LockState, now: LockState) -> Iterator[tuple[str, object, object]]:
    """The fields that differ between two states of a lock: their names, and what each has."""
    if was.root != now.root:
        yield "root", root_text(was.root), root_text(now.root)
    for number, (count, new_count) in enumerate(zip(was.nodes, now.nodes), 1):
        if count != new_count:
            yield f"node {number}", count, new_count
    for name, old, new in (
        ("mutex", _holder(was), _holder(now)),
        ("groups", was.queue.groups, now.queue.groups),
        ("writers", was.queue.writers, now.queue.writers),
    ):
        if old != new:
            yield name, old, new
    for number, (thread, new_thread) in enumerate(zip(was.threads, now.threads)):
        if thread is not new_thread and thread != new_thread:
            if _standing(thread) != _standing(new_thread):
                yield f"thread {number}", _standing(thread), _standing(new_thread)
            if thread.failures != new_thread.failures:
                yield f"failures of {number}", thread.failures, new_thread.failures


def _holder(lock: LockState) -> str:
    return "free" if lock.queue.mutex is None else f"thread {lock.queue.mutex}"


def _standing(thread: ThreadLine) -> str:
    return thread.standing if thread.ticket is None else f"{thread.standing} by {thread.ticket}"


class Memory:
    """What each thread last saw of each word: what its next swap of that word expects."""

    def __init__(self, before: Memory | None = None) -> None:
        """What is seen from here on, beside what was seen before."""
        self._seen: dict[tuple[int, int], str] = {} if before is None else dict(before._seen)

    def expected(self, thread: int, entry: Entry) -> str | None:
        """What a failed swap expected, where this is one and the sheets told."""
        return self._seen.get((thread, entry.word)) if entry.kind == journal.FAILED else None

    def note(self, thread: int, entry: Entry, after: Sheet) -> None:
        """Takes a row's entry in: a read tells the word, a failed swap too, and a swap that is done uses it up."""
        if entry.kind in (journal.READ, journal.FAILED):
            self._seen[thread, entry.word] = word_value(after, entry)
        elif entry.kind == journal.SWAPPED:
            self._seen.pop((thread, entry.word), None)


def descriptions(run: Run, states: Iterable[Sheet]) -> Iterator[str]:
    """What each row taken did, in words, from the states after 0, 1, .. rows."""
    return (described for described, _ in rows_told(run, states))


def rows_told(run: Run, states: Iterable[Sheet]) -> Iterator[tuple[str, list[str]]]:
    """What each row taken did, in words, and what changed, from the states after 0, 1, .. rows."""
    memory = Memory()
    for i, (entry, (before, after)) in enumerate(zip(run.journal, pairwise(states))):
        thread = run.schedule.rows[i].thread
        yield describe(run.schedule, i, before, after, entry, memory.expected(thread, entry)), changes(before, after)
        memory.note(thread, entry, after)


def refusal_text(run: Run) -> str:
    """Why the row at which a run ended was refused, as far as its order, the till and the sheet tell."""
    return refused_text(run.sheet, run.schedule.rows[run.sheet.taken], run.till)


def refused_text(sheet: Sheet, row: Row, till: Till | None) -> str:
    """The same, of the sheet of the rows before it."""
    answer = sheet.answer
    first, *second = sheet.locks
    why = ""
    if answer == 5:
        why = f"T is {len(first.threads)}"
    elif answer == 6 and row.order % orders.SECOND in range(orders.READ_LOCK, orders.READ_LOCK + orders.NAMED):
        why = f"N is {len(first.nodes) + 1}"
    elif answer == 6 and row.order in range(orders.BOOK, orders.BOOK + orders.NAMED):
        why = "there is no till" if till is None else f"E is {len(till.entries)}"
    elif answer == 7:
        also = "".join(f", in the second lock {_standing(lock.threads[row.thread])}" for lock in second)
        why = f"thread {row.thread} is {_standing(first.threads[row.thread])}{also}"
    return f"refused with {answer}: {REFUSALS[answer]}" + (f" ({why})" if why else "")


# The colours of a terminal, by what a row did; other rows have none.
_RED: Final = "31"
_COLOURS: Final = {
    journal.BEGUN: "1",
    journal.FAILED: _RED,
    journal.HELD_UP: "33",
    journal.DENIED_UPGRADE: "35",
    journal.DENIED_BOOKING: "35",
    journal.WOKE: "32",
    journal.BOOKED: "32",
}
_TICKET_COLOURS: Final = {ticket.TAKE: "1", ticket.ADVANCE: "32"}
# Descriptions are padded to this width; few are wider.
_DESCRIBED: Final = 56


class Table:
    """The lines of a trace."""

    def __init__(self, schedule: Schedule | TicketSchedule, colours: bool = False, words: Callable[[int], str] = orders.words) -> None:
        self._words = words
        self._rows = max(len("row"), len(str(len(schedule.rows))))
        self._threads = len("thread")
        self._orders = max([len("order"), *(len(words(row.order)) for row in schedule.rows)])
        self._colours = colours

    def header(self) -> str:
        """The line above the rows."""
        return self._line("row", "thread", "order", "what it did", "what changed", "1")

    def row(self, number: int, row: Row, described: str, changed: Iterable[str] = (), colour: str | None = None) -> str:
        """The line of a row."""
        return self._line(str(number), str(row.thread), self._words(row.order), described, "; ".join(changed), colour)

    def _line(self, number: str, thread: str, order: str, described: str, changed: str, colour: str | None) -> str:
        place = f"{number:>{self._rows}}  {thread:>{self._threads}}  {order:<{self._orders}}  "
        padding = " " * (_DESCRIBED - len(described)) if changed else ""
        if self._colours and colour is not None:
            described = f"\x1b[{colour}m{described}\x1b[0m"
        return f"{place}{described}{padding}{'  ' if changed else ''}{changed}"


def register(subparsers: _SubParsersAction[ArgumentParser]) -> None:
    """Adds the command ``trace``."""
    trace = subparsers.add_parser(
        "trace",
        help="print what each row of a schedule does",
        description="Runs a schedule and prints a line for each row: its number, its thread, its order, what it did, and what changed.\n"
        "The root word is shown as (direct arrivals, arrivals from nodes, open or closed). A failed swap shows the word that it\n"
        "expected, which its thread had read, and the word that it found. Options select rows; a row must fit all of them.\n"
        "\n"
        "The last line says so if the run's last state is stuck: every row that the bench would then take, of any thread and any\n"
        "order, is held up, so that nothing ever changes again. The library is asked for each. A state in which a thread is idle or\n"
        "holds is not stuck, because that thread can begin a call.",
        epilog="example:\n"
        "  ./bench trace examples/colliding-readers.schedule\n"
        "  ./bench trace --thread 1 --failures examples/colliding-readers.schedule\n"
        "  ./bench trace examples/crossed-locks.schedule\n"
        "  ./bench trace --dispatch --from 100 --to 120 examples/site-of-19-threads.wants\n"
        "  ./bench trace --till examples/one-song-charged-once.till examples/one-song-charged-once.bookings\n"
        "  ./bench trace examples/across-the-wrap.tickets",
    )
    inputs.add_run(trace)
    ticket_run.add_ticket(trace)
    trace.add_argument("--thread", metavar="T", type=int, action="append", help="only rows of thread T; may be given again for more threads")
    trace.add_argument("--from", dest="first", metavar="ROW", type=int, default=0, help="only rows from this one on (the first is 0)")
    trace.add_argument("--to", dest="last", metavar="ROW", type=int, help="only rows up to this one, which is included")
    trace.add_argument("--failures", action="store_true", help="only rows whose swap failed")
    trace.add_argument("--color", choices=("auto", "always", "never"), default="auto", help="colours; auto: on a terminal, unless NO_COLOR is set")
    trace.set_defaults(run=_trace)


def _trace(arguments: Namespace) -> int:
    if ticket_run.is_meant(arguments):
        last, tickets = ticket_run.run_of(arguments)
        _print(() if tickets is None else _ticket_lines(arguments, tickets), 0 if tickets is None else len(tickets.schedule.rows), last)
        return 0
    end, ran = inputs.run_of(arguments)
    _print(() if ran is None else _lines(arguments, ran), 0 if ran is None else len(ran.schedule.rows), end)
    if ran is not None and is_stuck(ran.schedule, ran.till):
        inputs.write(None, f"{STUCK}\n".encode("ascii"))
    return 0


def _print(lines: Iterable[str], rows: int, end: Sheet | TicketSheet) -> None:
    """Prints the lines of a trace of so many rows, the first of which is the header, and the answer."""
    out = inputs.standard_output()
    printed = 0
    for line in lines:
        out.write(f"{line}\n".encode("ascii"))
        printed += 1
    if printed == 1 and rows:
        print(f"bench: no rows selected (of {rows})", file=sys.stderr)
    why = f": {REFUSALS[end.answer]}" if end.answer else ""
    out.write(f"answer {end.answer} at {end.taken}{why}\n".encode("ascii"))


def _ticket_lines(arguments: Namespace, ran: TicketRun) -> Iterator[str]:
    rows, table, is_chosen = ran.schedule.rows, Table(ran.schedule, _colours(arguments.color), ticket.words), _chooser(arguments, ran.schedule.rows)
    yield table.header()
    for number, (described, changed) in enumerate(ticket_run.rows_told(ran)):
        if is_chosen(number, False):
            yield table.row(number, rows[number], described, changed, _TICKET_COLOURS.get(rows[number].order))
    refused = ran.sheet.taken
    if ran.sheet.answer and is_chosen(refused, False):
        yield table.row(refused, rows[refused], ticket_run.refusal_text(ran), colour=_RED)


def _chooser(arguments: Namespace, rows: Sequence[Row]) -> Callable[[int, bool], bool]:
    """Whether the arguments choose a row, by its number and whether its swap failed."""
    last = len(rows) if arguments.last is None else arguments.last

    def is_chosen(number: int, failed: bool) -> bool:
        return (
            arguments.first <= number <= last
            and (arguments.thread is None or rows[number].thread in arguments.thread)
            and (failed or not arguments.failures)
        )

    return is_chosen


def _lines(arguments: Namespace, ran: Run) -> Iterator[str]:
    """The lines of the rows that the arguments choose."""
    rows, table, is_chosen = ran.schedule.rows, Table(ran.schedule, _colours(arguments.color)), _chooser(arguments, ran.schedule.rows)
    yield table.header()
    told = rows_told(ran, states(ran.schedule, ran.till))
    for number, (entry, (described, changed)) in enumerate(zip(ran.journal, told)):
        if is_chosen(number, entry.kind == journal.FAILED):
            yield table.row(number, rows[number], described, changed, _COLOURS.get(entry.kind))
    refused = ran.sheet.taken
    if ran.sheet.answer and is_chosen(refused, False):
        yield table.row(refused, rows[refused], refusal_text(ran), colour=_RED)


def _colours(choice: str) -> bool:
    """Whether lines are coloured: on a terminal alone, unless the user wants it otherwise."""
    if choice != "auto":
        return choice == "always"
    return sys.stdout.isatty() and not os.environ.get("NO_COLOR") and os.environ.get("TERM") != "dumb"
