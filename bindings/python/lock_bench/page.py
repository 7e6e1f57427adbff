"""The command ``page``: a run as one self-contained page that steps through it.

The page holds the library's sheets: that of the fresh lock whole, and for each row the fields that changed. Its script (``page.js``) applies these changes and
draws them; neither side computes a step of the lock. Rows are numbered from 0, as in the trace: ``run.html#row=12`` shows the state after row 12.
"""

from __future__ import annotations

import base64
import hashlib
import html
import json
from argparse import ArgumentParser, Namespace, _SubParsersAction
from collections.abc import Iterator, Sequence
from importlib import resources
from itertools import pairwise
from string import Template
from typing import Final

from . import inputs, journal, orders, ticket, ticket_run
from .errors import BenchError
from .journal import Entry
from .run import Run, states
from .schedule import Row
from .sheet import STANDINGS, LockState, Sheet, ThreadLine
from .stuck import STUCK, is_stuck
from .ticket import TicketSheet
from .ticket_run import TicketRun
from .till import Till
from .trace import descriptions, refusal_text

#: Stands for a free mutex and for a ticket that is not there.
NONE: Final = -1

# What is said of a file that is refused as a whole.
_NOTHING: Final = "nothing to step through"

_STANDING: Final = {standing: number for number, standing in enumerate(STANDINGS)}


def register(subparsers: _SubParsersAction[ArgumentParser]) -> None:
    """Adds the command ``page``."""
    page = subparsers.add_parser(
        "page",
        help="write a page that steps through a schedule",
        description="Runs a schedule and writes one self-contained page to step through it in a browser: the tree with its counts, the\n"
        "root, the mutex and the queue, a lane for each thread with every failed swap and hold-up, the root's count over time, and\n"
        "the balances if there is a till. Arrow keys step; PAGE#row=12 opens it at row 12, as the trace numbers rows.",
        epilog="example:\n"
        "  ./bench page examples/late-reader.schedule -o late-reader.html\n"
        "  ./bench page --dispatch examples/site-of-19-threads.wants -o site.html --title '19 threads'\n"
        "  ./bench page --till examples/one-song-charged-once.till \\\n"
        "    examples/one-song-charged-once.bookings -o song.html\n"
        "  ./bench page examples/across-the-wrap.tickets -o tickets.html",
    )
    inputs.add_run(page)
    ticket_run.add_ticket(page)
    page.add_argument("-o", dest="output", metavar="PAGE", required=True, help="the file to write; - is standard output")
    page.add_argument("--title", help="the page's title; without it, the file's name")
    page.set_defaults(run=_page)


def _page(arguments: Namespace) -> int:
    inputs.check_text(arguments.title or "", "--title")
    title = arguments.title or inputs.title_of(inputs.input_name(arguments))
    written = (_ticket_page if ticket_run.is_meant(arguments) else _lock_page)(arguments, title)
    inputs.write(arguments.output, written.encode("utf-8"))
    return 0


def _lock_page(arguments: Namespace, title: str) -> str:
    run = inputs.taken_run(arguments, _NOTHING)
    return write_page(run, list(states(run.schedule, run.till)), title)


def _ticket_page(arguments: Namespace, title: str) -> str:
    end, run = ticket_run.run_of(arguments)
    if run is None:
        raise inputs.refused_whole(_NOTHING, end.answer, inputs.input_name(arguments))
    return write_ticket_page(run, title)


def write_page(run: Run, states: Sequence[Sheet], title: str, opened: int | None = None, recorded: str = "") -> str:
    """The page of a run: ``states`` are the sheets after 0, 1, .. rows taken, as ``lock_bench.run.states`` gives them; ``opened`` is the row at which it opens,
    and ``recorded`` what a server's record says there."""
    held = page_data(run, states, title)
    said = held["said"]
    if recorded and opened is not None and isinstance(said, list) and opened < len(said):
        said[opened] += f" - but the record says {recorded}"
    return whole(held, title, opened)


def write_ticket_page(run: TicketRun, title: str) -> str:
    """The page of a run of the ticket lock."""
    return whole(ticket_data(run, title), title)


def whole(held: dict[str, object], title: str, opened: int | None = None) -> str:
    """The page that holds this data, and opens at this row."""
    return _page_of(held | {"opened": opened}, title, "", _part("page.css"), _part("page.js"), "")


def live_page(held: dict[str, object], title: str) -> str:
    """The page that ``play`` serves: the same with a panel, and a script that asks its own server, and no other, for the run."""
    style, script = (_part(f"page.{kind}") + _part(f"play.{kind}") for kind in ("css", "js"))
    return _page_of(held, title, _part("play.html"), style, script, "; connect-src 'self'")


def _page_of(held: dict[str, object], title: str, panel: str, style: str, script: str, asks: str) -> str:
    return Template(_part("page.html")).substitute(
        title=html.escape(title),
        policy=_policy(style, script) + asks,
        style=style,
        script=script,
        panel=panel,
        # "<" would end the element, or begin a comment.
        data=json.dumps(held, separators=(",", ":")).replace("<", "\\u003c"),
    )


#: The rows that book, or try to.
_BOOKINGS: Final = (journal.BOOKED, journal.REPEATED, journal.DENIED_BOOKING)


def said_of(told: str, row: Row, entry: Entry, till: Till | None) -> str:
    """What a row did, as the page says it: of a booking its amount and its room too."""
    if till is None or entry.kind not in _BOOKINGS:
        return told
    booked = till.entries[row.order - orders.BOOK]
    return f"{told} ({booked.amount:+d}, room {booked.room})"


def page_data(run: Run, states: Sequence[Sheet], title: str) -> dict[str, object]:
    """What the page's script reads: sizes, rows, what each row did, and the states as changes of fields."""
    schedule, taken = run.schedule, run.sheet.taken
    if not states or not states[0].locks:
        raise BenchError(f"no states to show: the file is refused with {run.sheet.answer}", title)
    if len(states) != taken + 1:
        raise BenchError(f"{len(states)} states, and a run of {taken} rows taken has {taken + 1}", title)
    rows = schedule.rows[:taken]
    said = [said_of(told, row, entry, run.till) for told, row, entry in zip(descriptions(run, states), rows, run.journal)]
    shown = list(states)
    if run.sheet.answer:
        # The refused row is shown too: the sheet of the rows up to it, which has its number.
        rows = schedule.rows[: taken + 1]
        said.append(refusal_text(run))
        shown.append(run.sheet)
    return {
        "machine": "locks",
        "title": title,
        "nodes": schedule.nodes,
        "fan": schedule.fan,
        "threads": schedule.threads,
        "locks": len(states[0].locks),
        "rooms": len(states[0].rooms),
        "entries": [] if run.till is None else [[entry.room, entry.amount] for entry in run.till.entries],
        "fileRows": len(schedule.rows),
        "standings": STANDINGS,
        "none": NONE,
        "thread": [row.thread for row in rows],
        "order": [orders.words(row.order) for row in rows],
        "kind": [entry.kind for entry in run.journal],
        "word": [entry.word for entry in run.journal],
        "said": said,
        "start": _fields(shown[0]),
        "changes": list(changed_fields(shown)),
        # Of the last state, after the rows taken.
        "stuck": STUCK if is_stuck(run.schedule, run.till) else "",
    }


# What a row of the ticket lock did, by the numbers that the page's script has for it: took a ticket, holds, advanced the grant, waits on.
_TOOK, _HOLDS, _ADVANCED, _WAITS = 0, 1, 2, 4


def ticket_data(run: TicketRun, title: str) -> dict[str, object]:
    """What the page's script reads of a run of the ticket lock."""
    rows, said, shown = list(run.rows), [told for told, _ in ticket_run.rows_told(run)], list(run.states)
    kinds = [
        _TOOK if row.order == ticket.TAKE else _ADVANCED if row.order == ticket.ADVANCE else _WAITS if ticket_run.waited(row, after) else _HOLDS
        for row, after in zip(rows, shown[1:])
    ]
    has = list(ticket_run.tickets(run))
    if run.sheet.answer:
        rows.append(run.schedule.rows[run.sheet.taken])
        said.append(ticket_run.refusal_text(run))
        shown.append(run.sheet)
        has.append(has[-1])
    fields = [_ticket_fields(sheet, tickets) for sheet, tickets in zip(shown, has)]
    return {
        "machine": "tickets",
        "title": title,
        "nodes": 1,
        "fan": 1,
        "threads": run.schedule.threads,
        "locks": 1,
        "rooms": 0,
        "entries": [],
        "fileRows": len(run.schedule.rows),
        "standings": ticket.STANDINGS,
        "none": NONE,
        "thread": [row.thread for row in rows],
        "order": [ticket.words(row.order) for row in rows],
        "kind": kinds,
        # No row touches a word.
        "word": [journal.NO_WORD] * len(kinds),
        "said": said,
        "start": fields[0],
        "changes": [_differing(before, after) for before, after in pairwise(fields)],
        "stuck": "",
    }


def _ticket_fields(sheet: TicketSheet, tickets: Sequence[int | None]) -> list[int]:
    """A sheet of the ticket lock as numbers: the answer line, the ticket, the grant, and for each thread its standing and its ticket."""
    fields = [sheet.answer, sheet.taken, _or_none(sheet.ticket), _or_none(sheet.grant)]
    for standing, number in zip(sheet.threads, tickets):
        fields += (ticket.STANDINGS.index(standing), _or_none(number))
    return fields


def _differing(before: Sequence[int], after: Sequence[int]) -> list[int]:
    changed: list[int] = []
    _compare(0, before, after, changed)
    return changed


def _fields(sheet: Sheet) -> list[int]:
    """A sheet as numbers, in the sheet's own order: the answer line, each lock's root, nodes, queue and threads, then the rooms."""
    fields = [sheet.answer, sheet.taken]
    for lock in sheet.locks:
        fields += _head(lock)
        for thread in lock.threads:
            fields += _thread(thread)
    return [*fields, *sheet.rooms]


def _head(lock: LockState) -> list[int]:
    """A lock's fields before its threads."""
    root, queue = lock.root, lock.queue
    if root.tree is None:
        raise BenchError("the plain engine has no tree to draw")
    return [root.direct, root.tree, int(root.closed), *lock.nodes, _or_none(queue.mutex), queue.groups, queue.writers]


def _thread(thread: ThreadLine) -> list[int]:
    return [_STANDING[thread.standing], _or_none(thread.ticket), thread.failures]


def _or_none(number: int | None) -> int:
    return NONE if number is None else number


def changed_fields(sheets: Sequence[Sheet]) -> Iterator[list[int]]:
    """For each sheet but the first, the fields that differ from the one before: number and new value by turns."""
    before = sheets[0]
    for after in sheets[1:]:
        changed: list[int] = []
        _compare(0, [before.answer, before.taken], [after.answer, after.taken], changed)
        at = 2
        for was, now in zip(before.locks, after.locks):
            at = _compare(at, _head(was), _head(now), changed)
            for old, new in zip(was.threads, now.threads):
                # A thread's line that did not change is the same object in most sheets.
                at = at + 3 if old is new else _compare(at, _thread(old), _thread(new), changed)
        _compare(at, before.rooms, after.rooms, changed)
        yield changed
        before = after


def _compare(at: int, before: Sequence[int], after: Sequence[int], changed: list[int]) -> int:
    """Adds what differs of the fields from ``at`` on; gives the number of the field behind them."""
    if before != after:
        for number, (old, new) in enumerate(zip(before, after), at):
            if old != new:
                changed += (number, new)
    return at + len(before)


def _part(name: str) -> str:
    return resources.files(__package__).joinpath(name).read_text("utf-8")


def _policy(style: str, script: str) -> str:
    """Lets the page's own style and script in, by their hashes, and nothing else: the page can ask for nothing."""
    return f"default-src 'none'; img-src data:; style-src {_hash(style)}; script-src {_hash(script)}; base-uri 'none'; form-action 'none'"


def _hash(text: str) -> str:
    return f"'sha256-{base64.b64encode(hashlib.sha256(text.encode('utf-8')).digest()).decode('ascii')}'"
