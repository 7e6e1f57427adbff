"""The commands ``make`` and ``show``: texts to files and back."""

from __future__ import annotations

import sys
from argparse import ArgumentParser, Namespace, _SubParsersAction

from . import inputs, notation
from .errors import BenchError
from .schedule import Schedule


def register(subparsers: _SubParsersAction[ArgumentParser]) -> None:
    """Adds the commands."""
    make = subparsers.add_parser(
        "make",
        help="make a file from a text",
        description="Makes the file that a text stands for: a schedule, or a file of the ticket lock or a till if the\n"
        "text begins with the word `tickets` or `till`. `./bench notation` says how texts are written. If an `expect` of the text\n"
        "failed, nothing is written, and the exit status is 4.",
        epilog="example:\n"
        "  ./bench make examples/late-reader.schedule.txt -o late.schedule\n"
        "  ./bench make -e 'threads 2  0: read 0, go*2  1: write, go*6' -o waits.schedule\n"
        "  ./bench make -e 'till  rooms 2  0: room 1, +20  1: room 1, -3' -o till",
    )
    inputs.add_text_input(make)
    inputs.add_till(make)
    make.add_argument("-o", dest="output", metavar="FILE", help="the file to write; standard output if not given")
    make.set_defaults(run=_make)

    show = subparsers.add_parser(
        "show",
        help="print the text of a file",
        description="Prints the text of a file; `./bench make` turns it into the same bytes again. A file that no text stands for, such as\n"
        "one that is shorter than its sizes say, is an error.",
        epilog="example:\n"
        "  ./bench show examples/late-reader.schedule\n"
        "  ./bench show --numbers examples/late-reader.schedule\n"
        "  ./bench show examples/one-song-charged-once.till",
    )
    inputs.add_input(show, "the file")
    show.add_argument("--as", dest="kind", choices=("schedule", "tickets", "till"), help="what the file is, if its name's ending does not say so")
    show.add_argument("--numbers", action="store_true", help="use document 01's notation: orders as numbers")
    show.add_argument("-o", dest="output", metavar="TEXT", help="the file to write; standard output if not given")
    show.set_defaults(run=_show)

    told = subparsers.add_parser(
        "notation",
        help="say how texts are written",
        description="Says how the texts of schedules, of files of the ticket lock and of tills are written.",
    )
    told.set_defaults(run=_notation)


def _make(arguments: Namespace) -> int:
    if arguments.output is None and sys.stdout is not None and sys.stdout.isatty():
        raise inputs.UsageError("bytes are not written to a terminal: name a file with -o FILE")
    text, name = inputs.input_text(arguments), inputs.input_name(arguments)
    made = notation.parse_any_script(text, name)
    if isinstance(made, notation.Script):
        # What the text expects is asked first: where it is not so, nothing is written.
        arguments.text_read = made.read(inputs.till_bytes(arguments) if made.asks() else None)
        if arguments.text_read.unmet:
            return inputs.DIFFERENT
    data = arguments.text_read.schedule.to_bytes() if isinstance(made, notation.Script) else made.to_bytes()
    inputs.write(arguments.output, data)
    return 0


def _show(arguments: Namespace) -> int:
    document = inputs.document_of(arguments, arguments.kind)
    if arguments.numbers:
        if not isinstance(document, Schedule):
            raise BenchError("--numbers is for schedules only", inputs.input_name(arguments))
        text = notation.print_schedule(document, numbers=True)
    else:
        text = notation.print_any(document)
    inputs.write(arguments.output, text.encode("ascii"))
    return 0


def _notation(arguments: Namespace) -> int:
    inputs.write(None, notation.GUIDE.encode("ascii"))
    return 0
