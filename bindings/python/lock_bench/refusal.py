"""Why the library refuses a file as a whole, in words: which size is out of its range, how long the file is; and what the file looks like."""

from __future__ import annotations

from bisect import bisect_left
from collections import Counter
from collections.abc import Callable, Iterator
from typing import Final

from . import till
from .errors import BenchError
from .orders import GO_ON
from .reader import range_text
from .schedule import HEAD, Schedule, first_rows
from .sheet import Sheet

#: The refusal of an order that does not suit its thread.
UNSUITED: Final = 7
#: What the library takes of each size, from the least to the most.
RANGES: Final = {"nodes": (1, 32), "fan": (1, 16), "threads": (1, 64), "rows": (0, 4096), "rooms": (1, 32), "entries": (0, 32)}


def why(kind: str, file: bytes) -> str | None:
    """What is wrong with a file of this kind (schedule, tickets, till) as a whole; None where it would not be refused."""
    return "; ".join(_KINDS[kind](file)) or None


def looks_like(file: bytes) -> str | None:
    """The kind of file that these bytes would be without a fault, if they are one."""
    return next((kind for kind in _KINDS if why(kind, file) is None), None)


def has_length(kind: str, file: bytes) -> bool:
    """Whether a file has the length that its own sizes ask for, as one of this kind, whatever these sizes are."""
    counted = {"schedule": HEAD + 2 * int.from_bytes(file[3:HEAD], "little"), "tickets": HEAD + 2 * int.from_bytes(file[1:3], "little")}
    counted["till"] = till.HEAD + 3 * int.from_bytes(file[1:2], "little")
    return len(file) == counted[kind]


def out_of_range(name: str, value: int) -> str | None:
    """That a size is out of its range, where it is."""
    least, most = RANGES[name]
    return None if least <= value <= most else range_text(name, value, least, most)


def refused_call(wants: bytes, end: Sheet, given: Schedule, answer: Callable[[bytes], int]) -> int:
    """The number of the row of wanted calls that the dispatcher refused; it ended so, with these steps given, and ``answer`` says how it answers other files."""
    rows = Schedule.from_bytes(wants).rows
    if end.answer != UNSUITED:
        # Found before any step: the last row of the shortest beginning that is refused so too.
        return bisect_left(range(1, len(rows)), True, key=lambda count: answer(first_rows(wants, count)) == end.answer)
    # At its turn, which is the next by number of those who neither sleep nor have made all their calls.
    begun = Counter(row.thread for row in given.rows if row.order != GO_ON)
    last = given.rows[-1].thread if given.rows else -1
    for thread in (*range(last + 1, given.threads), *range(last + 1)):
        wanted = [number for number, row in enumerate(rows) if row.thread == thread]
        if begun[thread] < len(wanted) and not any(lock.threads[thread].standing == "asleep" for lock in end.locks):
            return wanted[begun[thread]]
    raise BenchError(f"refused with {end.answer}, and no thread has a call left")


def _schedule(file: bytes) -> Iterator[str]:
    if len(file) < HEAD:
        yield f"the file has {len(file)} bytes; its sizes alone take {HEAD}"
        return
    yield from _lengths(file, {"nodes": file[0], "fan": file[1], "threads": file[2], "rows": int.from_bytes(file[3:HEAD], "little")})


def _tickets(file: bytes) -> Iterator[str]:
    if len(file) < HEAD:
        yield f"the file has {len(file)} bytes; its sizes alone take {HEAD}"
        return
    yield from _lengths(file, {"threads": file[0], "rows": int.from_bytes(file[1:3], "little")})


def _lengths(file: bytes, sizes: dict[str, int]) -> Iterator[str]:
    """The sizes that are out of range; where none is, whether the length is the one that they ask for."""
    wrong = [said for name, value in sizes.items() if (said := out_of_range(name, value))]
    length = HEAD + 2 * sizes["rows"]
    if not wrong and len(file) != length:
        wrong = [f"the file has {len(file)} bytes; with {sizes['rows']} rows it must have {length}"]
    yield from wrong


def _till(file: bytes) -> Iterator[str]:
    if len(file) < till.HEAD:
        yield f"the file has {len(file)} bytes; its sizes alone take {till.HEAD}"
        return
    rooms, entries = file[0], file[1]
    wrong = [said for name, value in (("rooms", rooms), ("entries", entries)) if (said := out_of_range(name, value))]
    length = till.HEAD + 3 * entries
    if not wrong and len(file) != length:
        wrong = [f"the file has {len(file)} bytes; with {entries} entries it must have {length}"]
    yield from wrong or (f"entry {number} names room {room}, and the rooms are 0 to {rooms - 1}" for number, room in enumerate(file[till.HEAD : till.HEAD + entries]) if room >= rooms)


_KINDS: Final[dict[str, Callable[[bytes], Iterator[str]]]] = {"schedule": _schedule, "tickets": _tickets, "till": _till}
