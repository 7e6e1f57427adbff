"""The command ``compare``: the first row at which two schedules, or one on two shapes, differ."""

from __future__ import annotations

from argparse import ArgumentParser, Namespace, _SubParsersAction
from collections.abc import Iterator
from dataclasses import replace
from typing import Final

from . import inputs, orders
from .errors import BenchError
from .find import add_sizes
from .history import History
from .journal import kind_text, word_text
from .native import load
from .run import Run, run, states
from .schedule import Schedule, rows_text, same_before
from .sheet import LockState, Sheet
from .trace import changes, refusal_text, rows_told

_NAMES: Final = ("A", "B")


def parting(first: History, second: History) -> int | None:
    """The first row at which two histories part: by its thread or order, by what it did, or by the state behind it; None where they do not.

    Of states with trees of different sizes all but the nodes is compared, and of different numbers of threads those that both have.
    """
    if _bare(first.state(0), second.state(0)) != _bare(second.state(0), first.state(0)):
        return 0
    for number in range(max(len(first.rows), len(second.rows))):
        if number >= len(first.rows) or number >= len(second.rows):
            return number
        if first.rows[number] != second.rows[number] or first.entry(number) != second.entry(number):
            return number
        one, other = first.state(number + 1), second.state(number + 1)
        if _bare(one, other) != _bare(other, one):
            return number
    if first.answer != second.answer:
        return len(first.rows)
    return None


def _bare(sheet: Sheet, other: Sheet) -> Sheet:
    """A sheet without its nodes, where the other has another number of them, and without threads that the other has not."""

    def bare(lock: LockState, beside: LockState) -> LockState:
        return replace(lock, nodes=lock.nodes if len(lock.nodes) == len(beside.nodes) else (), threads=lock.threads[: len(beside.threads)])

    return replace(sheet, locks=tuple(map(bare, sheet.locks, other.locks)))


def register(subparsers: _SubParsersAction[ArgumentParser]) -> None:
    """Adds the command ``compare``."""
    compare = subparsers.add_parser(
        "compare",
        help="find the first row at which two schedules differ",
        description="Runs two schedules and shows the first row at which they differ: by its thread or order, by what it did, or by the state\n"
        "after it. With sizes in place of B, B is the same schedule, or with --dispatch the same wanted calls, on a tree of these sizes;\n"
        "nodes are then not compared.",
        epilog="exit status:\n"
        "  0  they are the same\n"
        "  4  they differ\n"
        "\n"
        "example:\n"
        "  ./bench compare examples/late-reader.schedule examples/late-reader.schedule.txt\n"
        "  ./bench compare --dispatch examples/shape-too-flat.wants examples/shape-between.wants | tail -1\n"
        "  ./bench compare --dispatch examples/shape-too-flat.wants --fan 3 | tail -1",
    )
    compare.add_argument("file", metavar="A", help=inputs.file_help("the schedule"))
    compare.add_argument("other", metavar="B", nargs="?", help="the other schedule; without it, A on the sizes given")
    add_sizes(compare.add_argument_group("the sizes of B, where it is A on another shape"))
    compare.add_argument("--text", action="store_true", help="both are texts whatever their names")
    inputs.add_till(compare)
    compare.add_argument("--dispatch", action="store_true", help="both have wanted calls: the schedules are those that the dispatcher gives")
    compare.set_defaults(run=_compare, given=None, strict=False)


def _compare(arguments: Namespace) -> int:
    sizes = {name: getattr(arguments, name) for name in ("nodes", "fan", "threads") if getattr(arguments, name) is not None}
    if (arguments.other is None) == (not sizes):
        raise inputs.UsageError("give either B or the sizes of another shape (see --help)")
    if arguments.file == arguments.other == inputs.STANDARD:
        raise inputs.UsageError("only one of the schedules can be standard input")
    one = _ran(arguments)
    if arguments.other is None:
        two, status = _resized(arguments, one, sizes), 0
    else:
        beside = Namespace(**{**vars(arguments), "file": arguments.other, "text_read": None})
        two = _ran(beside)
        status = inputs.settled(beside, 0)
    row = parting(_history(one), _history(two))
    inputs.write_lines(_lines(row, one, two))
    return status if row is None else inputs.DIFFERENT


def _ran(arguments: Namespace) -> Run:
    return inputs.taken_run(arguments, "nothing to compare")


def _resized(arguments: Namespace, one: Run, sizes: dict[str, int]) -> Run:
    """The same schedule, or the same wanted calls, on other sizes."""
    if not arguments.dispatch:
        return run(replace(one.schedule, **sizes), one.till)
    if arguments.file == inputs.STANDARD:
        raise inputs.UsageError("wanted calls are read once for each shape: give a file, not standard input")
    wanted = replace(Schedule.from_bytes(inputs.input_bytes(arguments), inputs.input_name(arguments)), **sizes)
    given = load().dispatch_sheet(wanted.to_bytes())
    if not given.schedule:
        raise BenchError(f"refused on these sizes: {given.sheet.decode('ascii').splitlines()[0]}", inputs.input_name(arguments))
    return run(Schedule.from_bytes(given.schedule))


def _history(ran: Run) -> History:
    return History.of(ran.schedule, ran.till)


def _lines(row: int | None, one: Run, two: Run) -> Iterator[str]:
    if row is None:
        yield f"the same: {rows_text(one.sheet.taken)}"
        return
    runs = (one, two)
    for name, ran in zip(_NAMES, runs):
        schedule = ran.schedule
        yield f"{name}: nodes {schedule.nodes}, fan {schedule.fan}, threads {schedule.threads}, {rows_text(len(schedule.rows))}"
    yield f"row {row} differs"
    for name, ran in zip(_NAMES, runs):
        yield f"  {name}  {_row_text(row, ran)}"
    yield ""
    yield from _state_lines(row, one, two)
    yield f"they differ at row {row}{same_before(row)}"


def _row_text(row: int, ran: Run) -> str:
    """What a run has at a row."""
    if row < len(ran.journal):
        *_, (told, changed) = rows_told(ran, states(ran.schedule.first(row + 1), ran.till))
        due, entry = ran.schedule.rows[row], ran.journal[row]
        what = f"{due.thread}: {orders.words(due.order)}: {told} ({kind_text(entry.kind)}, on {word_text(entry.word)})"
        return what + (f"; {'; '.join(changed)}" if changed else "")
    if row == ran.sheet.taken and ran.sheet.answer:
        due = ran.schedule.rows[row]
        return f"{due.thread}: {orders.words(due.order)}: {refusal_text(ran)}"
    return "no more rows"


def _state_lines(row: int, one: Run, two: Run) -> Iterator[str]:
    """What differs between the states behind the row."""
    first, second = (_history(ran).state(min(row + 1, ran.sheet.taken)) for ran in (one, two))
    differ = changes(_bare(first, second), _bare(second, first))
    if differ:
        yield "after it, A -> B: " + "; ".join(differ)
        yield ""
