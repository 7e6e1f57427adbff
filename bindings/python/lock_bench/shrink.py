"""Schedules made smaller while a condition holds; the command ``shrink``.

What is tried is always the same: something is taken away, or put in another's place, the rows that are left are made anew, those that are refused now are
dropped, and the condition is asked after each row. It ends where no row, thread or node can be taken away any more.
"""

from __future__ import annotations

from argparse import ArgumentParser, Namespace, RawDescriptionHelpFormatter, _SubParsersAction
from collections.abc import Iterator
from dataclasses import dataclass, replace
from itertools import chain
from typing import Final

from . import condition, inputs, journal, notation, orders
from .condition import Condition, Sizes
from .history import History
from .native import Library, load
from .reader import count_text
from .schedule import Row, Schedule, rows_text

# Up to so many rows all is tried.
_SHORT: Final = 48


@dataclass(frozen=True, slots=True)
class Keeping:
    """What is kept: a condition, with the till beside the schedules and the library that is asked."""

    kept: Condition
    till: bytes | None
    library: Library

    def history(self, schedule: Schedule) -> History:
        """The history of a schedule without its refused rows, and without those that are held up where nobody asks for them."""
        held_up = counts_held_up(self.kept)
        rows = schedule.rows
        while True:
            found = History(schedule.to_bytes()[:3], rows, self.till, self.library)
            if found.answer:
                rows = (*found.rows, *rows[len(found.rows) + 1 :])
            elif not held_up and journal.HELD_UP in found.kinds:
                rows = tuple(row for row, kind in zip(rows, found.kinds) if kind != journal.HELD_UP)
            else:
                return found

    def first(self, schedule: Schedule) -> Schedule | None:
        """The fewest first rows, refused ones dropped, after which the condition holds; None where it does not."""
        history = self.history(schedule)
        for rows in range(len(history.rows) + 1):
            shorter = history.first(rows)
            if self.kept.holds(shorter):
                return shorter.schedule
        return None


def counts_held_up(kept: Condition) -> bool:
    """Whether held-up rows, which change nothing, count for a condition."""
    return any(quantity.what == "rows" or journal.HELD_UP in quantity.kinds for quantity in condition.quantities(kept))


def shrunk_rows(schedule: Schedule, keeping: Keeping) -> Schedule | None:
    """The schedule with rows taken away until none can be any more; None where the condition does not hold after any of its rows."""
    found = keeping.first(schedule)
    while found is not None:
        smaller = next(_smaller(found, _without_rows(found), keeping), None)
        if smaller is None:
            return found
        found = smaller
    return None


def shortened_rows(schedule: Schedule, keeping: Keeping) -> Schedule | None:
    """The same, where threads may be renamed and calls replaced by others if that makes it shorter."""
    found = shrunk_rows(schedule, keeping)
    while found is not None:
        smaller = next(_smaller(found, _changed(found), keeping), None)
        if smaller is None:
            return found
        found = shrunk_rows(smaller, keeping)
    return None


def shrunk(schedule: Schedule, keeping: Keeping) -> Schedule | None:
    """The schedule with rows, threads and nodes taken away until none can be any more; None where the condition does not hold after any of its rows."""
    found = shrunk_rows(schedule, keeping)
    while found is not None:
        # What is merely taken away first: it is soon seen, and leaves less to rename and to replace.
        fewer = (*_without_thread(found, keeping.kept), *_without_node(found, keeping.kept))
        smaller = next(_smaller(found, chain(fewer, _merged(found, keeping.kept), _changed(found)), keeping), None)
        if smaller is None:
            # From N - 1 on, every fan-out gives the same tree.
            return replace(found, fan=min(found.fan, max(1, found.nodes - 1)))
        found = shrunk_rows(smaller, keeping)
    return None


def _smaller(schedule: Schedule, tried: Iterator[Schedule], keeping: Keeping) -> Iterator[Schedule]:
    """Those of the schedules tried after which the condition holds, and that are smaller."""
    for candidate in tried:
        found = keeping.first(candidate)
        if found is not None and _size(found) < _size(schedule):
            yield found


def _size(schedule: Schedule) -> tuple[int, int, int]:
    return schedule.threads, schedule.nodes, len(schedule.rows)


def _without_rows(schedule: Schedule) -> Iterator[Schedule]:
    """Schedules with some rows less: all of a thread, a call, many in a row, then fewer, at last one."""
    rows = schedule.rows
    for thread in sorted({row.thread for row in rows}):
        yield replace(schedule, rows=tuple(row for row in rows if row.thread != thread))
    yield from _without_call(schedule)
    length = len(rows) // 2
    while length:
        for begin in range(0, len(rows), length):
            yield replace(schedule, rows=(*rows[:begin], *rows[begin + length :]))
        length //= 2


def _without_call(schedule: Schedule) -> Iterator[Schedule]:
    rows = schedule.rows
    for begin, row in enumerate(rows):
        if row.order != orders.GO_ON:
            call = _call(rows, begin)
            yield replace(schedule, rows=tuple(row for number, row in enumerate(rows) if number not in call))


def _changed(schedule: Schedule) -> Iterator[Schedule]:
    """Schedules with a thread renamed or a call replaced; and the same with a call less, since what a lock was freed for may be needed no more. Of a long
    schedule these would be too many."""
    for changed in (*_renamed(schedule), *_replaced(schedule)):
        yield changed
        if len(schedule.rows) <= _SHORT:
            yield from _without_call(changed)


def _renamed(schedule: Schedule) -> Iterator[Schedule]:
    """Schedules in which one thread makes another's rows too: what it did before may do for both."""
    used = sorted({row.thread for row in schedule.rows})
    for thread in used:
        for other in used:
            if other != thread:
                yield replace(schedule, rows=_by_thread(schedule.rows, thread, other))


def _replaced(schedule: Schedule) -> Iterator[Schedule]:
    """Schedules in which a lock is got by another call, a read-lock straight at the root or a write-lock, which may have fewer rows."""
    rows = schedule.rows
    for begin, row in enumerate(rows):
        lock, order = divmod(row.order, orders.SECOND)
        if orders.READ_LOCK <= order < orders.READ_LOCK + orders.NAMED or order == orders.WRITE_LOCK:
            for other in (orders.WRITE_LOCK, orders.READ_LOCK):
                if other != order:
                    yield replace(schedule, rows=(*rows[:begin], Row(row.thread, other + orders.SECOND * lock), *rows[begin + 1 :]))


def _call(rows: tuple[Row, ...], begin: int) -> set[int]:
    """The rows of the call that a row begins."""
    thread, call = rows[begin].thread, {begin}
    for number in range(begin + 1, len(rows)):
        if rows[number].thread == thread:
            if rows[number].order != orders.GO_ON:
                break
            call.add(number)
    return call


def _without_thread(schedule: Schedule, kept: Condition) -> Iterator[Schedule]:
    """Schedules with a thread less: one that the condition does not name is taken away, and the last one takes its number."""
    for thread in _unnamed(schedule, kept):
        yield _numbered(schedule, tuple(row for row in schedule.rows if row.thread != thread), thread)


def _merged(schedule: Schedule, kept: Condition) -> Iterator[Schedule]:
    """Schedules with a thread less, whose rows another thread makes."""
    for thread in _unnamed(schedule, kept):
        for other in range(schedule.threads):
            if other != thread:
                yield _numbered(schedule, _by_thread(schedule.rows, thread, other), thread)


def _unnamed(schedule: Schedule, kept: Condition) -> list[int]:
    """The threads that can be taken away: those that the condition does not name, if it does not name the last one, which takes their number."""
    named = {quantity.thread for quantity in condition.quantities(kept)}
    last = schedule.threads - 1
    return [] if last in named or last == 0 else [thread for thread in range(schedule.threads) if thread not in named]


def _numbered(schedule: Schedule, rows: tuple[Row, ...], thread: int) -> Schedule:
    """The schedule of these rows, in which there is no such thread: the last one takes its number."""
    last = schedule.threads - 1
    return replace(schedule, threads=last, rows=_by_thread(rows, last, thread))


def _by_thread(rows: tuple[Row, ...], thread: int, other: int) -> tuple[Row, ...]:
    """The rows, in which another thread makes those of one."""
    return tuple(replace(row, thread=other) if row.thread == thread else row for row in rows)


def _without_node(schedule: Schedule, kept: Condition) -> Iterator[Schedule]:
    """Schedules without the last node: who read by it reads by another."""
    last = schedule.nodes - 1
    if last == 0 or last in {quantity.number for quantity in condition.quantities(kept) if quantity.what in ("node", "standing", "event")}:
        return
    for node in range(last):
        yield replace(schedule, nodes=last, rows=tuple(replace(row, order=_by(row.order, last, node)) for row in schedule.rows))


def _by(order: int, last: int, node: int) -> int:
    """An order, which is by another node where it was a read-lock by the last one."""
    return order - last + node if order % orders.SECOND == orders.READ_LOCK + last else order


# ---- The command.


def register(subparsers: _SubParsersAction[ArgumentParser]) -> None:
    """Adds the command ``shrink``."""
    parser = subparsers.add_parser(
        "shrink",
        help="make a schedule smaller while a condition holds",
        description="Takes rows, threads and nodes away from a schedule as long as the condition holds after its last row, and prints the text of\n"
        "what is left: no row, thread or node can be taken away any more. Rows that are refused then are dropped with them. Where a\n"
        "thread is taken away its rows go too, or another thread makes them, and the last thread takes its number; where the last node\n"
        "is taken away its readers read by another; a lock may be got by a shorter call. Threads and nodes that the condition names\n"
        "stay.\n"
        "`./bench find --help` says how conditions are written.",
        epilog="exit status:\n"
        "  0  done\n"
        "  4  the condition holds after none of its rows\n"
        "\n"
        "example:\n"
        "  ./bench shrink examples/late-reader.schedule --keep 'late arrival'\n"
        "  ./bench shrink --dispatch examples/site-of-19-threads.wants --keep 'failures >= 3' -o 3.txt",
        formatter_class=RawDescriptionHelpFormatter,
    )
    inputs.add_run(parser)
    parser.add_argument("--keep", metavar="CONDITION", required=True, help="what must hold after the last row")
    add_output(parser)
    parser.set_defaults(run=_shrink)


def add_output(parser: ArgumentParser) -> None:
    """Adds the argument that says where a schedule is written."""
    parser.add_argument("-o", dest="output", metavar="FILE", help=f"where the schedule is written, as a text if the name ends in {inputs.TEXT}")


def write_schedule(schedule: Schedule, expected: str, said: list[str], output: str | None) -> None:
    """Writes a schedule: as a text that says what it is, and expects what holds after it, or as a file."""
    if output is not None and output != inputs.STANDARD and not output.endswith(inputs.TEXT):
        inputs.write(output, schedule.to_bytes())
        return
    text = "".join(f"# {line}\n" for line in said) + notation.print_schedule(schedule) + f"expect {expected}\n"
    inputs.write(output, text.encode("ascii", "backslashreplace"))


def _shrink(arguments: Namespace) -> int:
    run = inputs.taken_run(arguments, "nothing to shrink")
    schedule = run.schedule
    kept = condition.parse(arguments.keep, Sizes(schedule.threads, schedule.nodes, len(run.sheet.rooms)), "--keep")
    keeping = Keeping(kept, inputs.till_bytes(arguments), load())
    found = shrunk(schedule, keeping)
    if found is None:
        after = History.of(schedule, run.till, load())
        raise inputs.NotSo(f"'{arguments.keep}' holds after none of its rows; at the end, {condition.told(kept, after)}", inputs.input_name(arguments))
    text = condition.on_a_line(arguments.keep)
    write_schedule(found, text, [text, f"{_sizes(schedule)} shrunk to {_sizes(found)}: none can be taken away any more"], arguments.output)
    return 0


def _sizes(schedule: Schedule) -> str:
    return f"{rows_text(len(schedule.rows))}, {count_text(schedule.threads, 'thread')}, {count_text(schedule.nodes, 'node')}"
