"""What could come next after some rows: the orders that suit each thread, what each would do, and in which order a queue will leave.

All of it is asked of the library. A row in question is appended to the rows; the answer, the journal's entry and the sheet say what it would do.
"""

from __future__ import annotations

from collections.abc import Iterator, Sequence
from typing import Final, NamedTuple

from . import journal, orders
from .history import MOST_ROWS, Asked, History
from .journal import Entry
from .schedule import Row
from .sheet import Sheet
from .till import Till
from .trace import queue_text, word_value, woken

# The calls of each lock that are offered beside `read N`.
_CALLS: Final = (orders.WRITE_LOCK, orders.UNLOCK, orders.UPGRADE, orders.DOWNGRADE)
# What a queue's row does, by the first word of what it did.
_PRESENT: Final = {"joined": "joins", "took": "takes", "found": "finds"}
# As many rows as most calls take whose thread goes on alone; one that takes more is gone on with.
_CALL_ROWS: Final = 40


class Choice(NamedTuple):
    """A row that the library would take now: its order, the kind of its entry, and what it would do, where the order does not say that itself."""

    order: int
    kind: int
    said: str


def choices(history: History, nodes: Sequence[Sequence[int]], entry: int | None, till: Till | None) -> list[list[Choice]]:
    """For each thread the rows that the library would take: going on, the calls of each lock, and booking this entry.

    ``nodes`` has for each lock that is asked, the first or both, the node by which each thread would read.
    """
    calls = _calls_under_way(history)
    found: list[list[Choice]] = []
    for thread in range(history.threads):
        taken: list[Choice] = []
        for order in _offered([of_lock[thread] for of_lock in nodes], entry):
            asked = history.ask(Row(thread, order))
            if asked.answer == 0:
                taken.append(Choice(order, asked.kinds[0], _said(history, thread, order, asked, calls.get(thread, 0), till)))
        found.append(taken)
    return found


def _offered(nodes: Sequence[int], entry: int | None) -> Iterator[int]:
    yield orders.GO_ON
    for lock, node in enumerate(nodes):
        yield from (call + orders.SECOND * lock for call in (orders.READ_LOCK + node, *_CALLS))
    if entry is not None:
        yield orders.BOOK + entry


def _calls_under_way(history: History) -> dict[int, int]:
    """The order of each thread's latest call, without the second lock's 128."""
    return {row.thread: row.order % orders.SECOND for row in history.rows if row.order != orders.GO_ON}


def _said(history: History, thread: int, order: int, asked: Asked, call: int, till: Till | None) -> str:
    entry = asked.entry(0)
    if entry.kind == journal.BEGUN:
        return ""
    if order >= orders.BOOK and till is not None:
        return booking_text(till, order - orders.BOOK, entry.kind)
    said = step_text(history.end, Sheet.parse(asked.sheet), thread, entry, call)
    return said if entry.lock == 0 else f"second lock: {said}"


def booking_text(till: Till, number: int, kind: int) -> str:
    """What booking an entry would do, by the kind of its row."""
    booked = f"{till.entries[number].amount:+d} for room {till.entries[number].room}"
    match kind:
        case journal.BOOKED:
            return f"books {booked}"
        case journal.REPEATED:
            return f"changes nothing: {booked} is booked"
        case _:
            return f"would be denied: {booked} would take the balance below 0"


def step_text(before: Sheet, after: Sheet, thread: int, entry: Entry, call: int) -> str:
    """What the next step of a thread's call would do, from the sheets before and after it and its entry; ``call`` is the order that began the call."""
    was, now = before.locks[entry.lock], after.locks[entry.lock]
    name = "the root" if entry.place == journal.ROOT else f"node {entry.place}"
    match entry.kind:
        case journal.READ:
            return f"reads {name}: {word_value(after, entry)}"
        case journal.SWAPPED:
            return f"swaps {name} to {word_value(after, entry)}"
        case journal.FAILED:
            denied = "; upgrade denied" if now.threads[thread].standing == "reading" else ""
            return f"would fail: {name} is {word_value(after, entry)}{denied}"
        case journal.HELD_UP:
            return "asleep" if was.threads[thread].standing == "asleep" else f"held up by thread {was.queue.mutex}"
        case journal.STORED:
            return f"stores {name}: {word_value(after, entry)}"
        case journal.TOOK_MUTEX:
            return "takes the mutex"
        case journal.RELEASED_MUTEX:
            return "releases the mutex, and sleeps" if now.threads[thread].standing == "asleep" else "releases the mutex"
        case journal.CHANGED_QUEUE:
            first, _, rest = queue_text(call, was, now).partition(" ")
            return f"{_PRESENT[first]} {rest}"
        case journal.WOKE:
            return " ".join(["wakes", *map(str, woken(was, now))])
        case journal.DENIED_UPGRADE:
            return f"reads {name}: {word_value(after, entry)}; upgrade denied"
        case kind:
            return f"kind {kind} on word {entry.word}"


def leaving(history: History, lock: int) -> list[list[int]]:
    """The sleepers of a lock in the order in which they leave, those who leave together in one list, if nobody begins a call but those who hold, who unlock.

    The library is asked: whoever has the mutex goes on, else a holder unlocks, the lowest number first, else a call under way goes on, and who wakes is seen.
    Sleepers that nobody wakes so, or for whom too few rows are left to ask, are in no list.
    """
    if len(history.rows) > MOST_ROWS // 2:
        # Leaves the state, and makes room for the rows that are asked.
        history = history.without_held_up()
    left: list[list[int]] = []
    rows: list[Row] = []
    sheet = history.end
    asleep = _asleep(sheet, lock)
    while asleep & _asleep(sheet, lock):
        made = 0
        for mover in _movers(sheet, lock):
            room = MOST_ROWS - len(history.rows) - len(rows)
            tried = [mover, *[Row(mover.thread, orders.GO_ON)] * _CALL_ROWS][:room]
            asked = history.ask(*rows, *tried)
            kinds = asked.kinds[len(rows) :]
            moved = next((i for i, kind in enumerate(kinds) if kind == journal.HELD_UP), len(kinds))
            rows += tried[:moved]
            made += moved
            # Who unlocks to the end and wakes nobody leaves the others as they were: the next of them moves. Else it is asked anew who may.
            is_unlocked = mover.order != orders.GO_ON and moved == len(kinds) < len(tried)
            if moved and not (is_unlocked and journal.WOKE not in kinds):
                break
        if not made:
            break
        before, sheet = sheet, Sheet.parse(asked.sheet)
        group = [thread for thread in woken(before.locks[lock], sheet.locks[lock]) if thread in asleep]
        if group:
            left.append(group)
    return left


def _asleep(sheet: Sheet, lock: int) -> set[int]:
    return {thread for thread, line in enumerate(sheet.locks[lock].threads) if line.standing == "asleep"}


def _movers(sheet: Sheet, lock: int) -> Iterator[Row]:
    """The next row of each who may move."""
    state = sheet.locks[lock]
    calling = {thread for each in sheet.locks for thread, line in enumerate(each.threads) if line.standing == "calling"}
    if state.queue.mutex is not None:
        yield Row(state.queue.mutex, orders.GO_ON)
    for thread, line in enumerate(state.threads):
        if line.standing in ("reading", "writing"):
            yield Row(thread, orders.GO_ON if thread in calling else orders.UNLOCK + orders.SECOND * lock)
    yield from (Row(thread, orders.GO_ON) for thread in sorted(calling))
