"""The lock bench in Python: schedules, sheets and journals as values, over the proved library.

    >>> from lock_bench import Row, Schedule, run
    >>> ran = run(Schedule(nodes=1, fan=1, threads=1, rows=(Row(0, 64), Row(0, 0), Row(0, 0))))
    >>> ran.sheet.locks[0].threads[0].standing
    'reading'
"""

import sys

if sys.version_info < (3, 11):
    # Before anything is loaded that an older Python cannot read.
    raise ImportError("lock_bench needs Python 3.11 or newer; this is %d.%d" % sys.version_info[:2])

from .errors import BenchError, LibraryError, NotationError
from .journal import KINDS, Entry, Journal
from .native import Dispatched, Library, Ran, load
from .orders import BOOK, DOWNGRADE, GO_ON, READ_LOCK, SECOND, UNLOCK, UPGRADE, WRITE_LOCK, order_of, words
from .run import Run, run, states
from .schedule import Row, Schedule
from .sheet import LockState, Queue, Root, Sheet, ThreadLine
from .site_sheet import SiteSheet
from .ticket import TicketSchedule, TicketSheet
from .till import Till, TillEntry

__all__ = [
    "BOOK",
    "BenchError",
    "DOWNGRADE",
    "Dispatched",
    "Entry",
    "GO_ON",
    "Journal",
    "KINDS",
    "Library",
    "LibraryError",
    "LockState",
    "NotationError",
    "Queue",
    "READ_LOCK",
    "Ran",
    "Root",
    "Row",
    "Run",
    "SECOND",
    "Schedule",
    "Sheet",
    "SiteSheet",
    "ThreadLine",
    "TicketSchedule",
    "TicketSheet",
    "Till",
    "TillEntry",
    "UNLOCK",
    "UPGRADE",
    "WRITE_LOCK",
    "load",
    "order_of",
    "run",
    "states",
    "words",
]
