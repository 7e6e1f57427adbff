"""The commands ``sheet``, ``plain``, ``dispatch`` and ``ticket``: the library's sheets of files and texts."""

from __future__ import annotations

from argparse import ArgumentParser, Namespace, _SubParsersAction

from . import inputs, notation
from .native import load
from .schedule import Schedule
from .sheet import answer_of, sheet_lines


def register(subparsers: _SubParsersAction[ArgumentParser]) -> None:
    """Adds the commands."""
    sheet = subparsers.add_parser(
        "sheet",
        help="print the sheet of a schedule",
        description="Runs a schedule on fresh locks, step by step, and prints its sheet: who holds, who sleeps, what failed. With a till the\n"
        "orders `book` are taken too, and the sheet ends with the balance of each room.",
        epilog="example:\n"
        "  ./bench sheet examples/late-reader.schedule\n"
        "  ./bench sheet -e '0: read 0, go*2'\n"
        "  ./bench sheet examples/two-locks.schedule.txt\n"
        "  ./bench sheet --till examples/one-song-charged-once.till examples/one-song-charged-once.bookings",
    )
    inputs.add_input(sheet, "the schedule")
    inputs.add_till(sheet)
    inputs.add_strict(sheet)
    sheet.set_defaults(run=_sheet)

    plain = subparsers.add_parser(
        "plain",
        help="print the plain engine's sheet of a file of calls",
        description="Runs a file of the same form on the plain engine, a single surplus and a flag where the tree was: each row is a\n"
        "whole call.",
        epilog="example:\n  ./bench plain examples/hand-over.calls\n  ./bench plain -e 'threads 2  0: write  1: read 0  0: unlock'",
    )
    inputs.add_input(plain, "the calls")
    inputs.add_strict(plain)
    plain.set_defaults(run=_plain, calls=True)

    dispatch = subparsers.add_parser(
        "dispatch",
        help="give the threads of a file of wanted calls their turns",
        description="Takes a file of the same form in which each row is a call that its thread wants, gives the threads their steps in\n"
        "turn, and prints the sheet.",
        epilog="example:\n"
        "  ./bench dispatch examples/writer-and-reader.wants\n"
        "  ./bench dispatch examples/writer-and-reader.wants -o both.schedule && ./bench trace both.schedule",
    )
    inputs.add_input(dispatch, "the wanted calls")
    dispatch.add_argument(
        "-o", dest="output", metavar="SCHEDULE", help=f"the file to write the steps to, as a schedule: a text if the name ends in {inputs.TEXT}"
    )
    inputs.add_strict(dispatch)
    dispatch.set_defaults(run=_dispatch, dispatch=True)

    ticket = subparsers.add_parser(
        "ticket",
        help="print the sheet of a file of the ticket lock",
        description="Runs a file of the ticket lock and prints its sheet.",
        epilog="example:\n"
        "  ./bench ticket examples/across-the-wrap.tickets.txt\n"
        "  ./bench ticket -e 'tickets  threads 2  start 65535  0: take, compare  1: take  0: advance'",
    )
    inputs.add_input(ticket, "the file")
    inputs.add_strict(ticket)
    ticket.set_defaults(run=_ticket)


def _sheet(arguments: Namespace) -> int:
    file, till = inputs.input_bytes(arguments), inputs.till_bytes(arguments)
    return _print(arguments, file, load().sheet(file, till).sheet, till)


def _plain(arguments: Namespace) -> int:
    file = inputs.input_bytes(arguments)
    return _print(arguments, file, load().plain_sheet(file))


def _dispatch(arguments: Namespace) -> int:
    file = inputs.input_bytes(arguments)
    given = load().dispatch_sheet(file)
    # After refusals 1 to 3 there is no schedule, and its file is left as it was.
    if arguments.output is not None and given.schedule:
        as_text = arguments.output.endswith(inputs.TEXT)
        data = notation.print_schedule(Schedule.from_bytes(given.schedule)).encode("ascii") if as_text else given.schedule
        inputs.write(arguments.output, data)
    status = _print(arguments, file, given.sheet)
    inputs.explain_call(arguments, file, *given)
    return status


def _ticket(arguments: Namespace) -> int:
    file = inputs.input_bytes(arguments, tickets=True)
    return _print(arguments, file, load().ticket_sheet(file), kind="tickets")


def _print(arguments: Namespace, file: bytes, sheet: bytes, till: bytes | None = None, kind: str = "schedule") -> int:
    """Prints the sheet; a refused file or row is no failure, and the first line has its number."""
    inputs.write(None, sheet)
    inputs.explain_refusal(arguments, file, sheet, till, kind)
    arguments.ended = answer_of(sheet_lines(sheet)[0])
    return 0
