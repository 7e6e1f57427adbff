"""Whether a state is stuck: no row of any thread would change anything.

That is asked of the library, row by row: each thread is given each order that there is, behind the rows that led to the state. The state is stuck where every
row that is taken is held up (kind 4), the thread being asleep or at a mutex that another has. A state where a thread is idle or holds is not stuck: it can begin
a call. With one lock no state is stuck; two locks that are taken in opposite orders can be (``examples/crossed-locks.schedule``).
"""

from __future__ import annotations

from collections.abc import Iterator
from typing import Final

from . import journal, orders
from .history import MOST_ROWS, History
from .native import Library
from .schedule import Row, Schedule
from .till import Till

#: What a stuck state is said to be.
STUCK: Final = "stuck: no row of any thread would change anything"


def is_stuck(schedule: Schedule, till: Till | None = None, library: Library | None = None) -> bool:
    """Whether the state after a schedule's rows, those taken where one is refused, is stuck.

    The trace and the page show this of a run's last state: ``is_stuck(run.schedule, run.till)``.
    """
    return is_stuck_after(History.of(schedule, till, library))


def is_stuck_after(history: History) -> bool:
    """Whether the state after these rows is stuck.

    Rows that were held up are left out first, which leaves the state and makes room for one more row. Where 4,096 others are left there is no room to ask, and
    the state is not called stuck.
    """
    if len(history.rows) == MOST_ROWS:
        history = history.without_held_up()
    if len(history.rows) == MOST_ROWS:
        return False
    return not any(_moves(history, Row(thread, order)) for order in _orders(history) for thread in range(history.threads))


def _moves(history: History, row: Row) -> bool:
    """Whether a row would be taken and not held up."""
    asked = history.ask(row)
    return asked.answer == 0 and asked.kinds[0] != journal.HELD_UP


def _orders(history: History) -> Iterator[int]:
    """Every order of these sizes, those that are most often taken first."""
    calls = (orders.UNLOCK, orders.WRITE_LOCK, *range(orders.READ_LOCK, orders.READ_LOCK + history.nodes), orders.UPGRADE, orders.DOWNGRADE)
    yield orders.GO_ON
    yield from calls
    yield from (orders.SECOND + call for call in calls)
    yield from range(orders.BOOK, orders.BOOK + history.entries)
