"""The command line: ``./bench`` at the repository's root, or ``python3 -m lock_bench``."""

from __future__ import annotations

import sys
from argparse import Action, ArgumentParser, Namespace, _SubParsersAction
from collections.abc import Sequence
from typing import IO

from . import build, compare, completion, cover, explored, find, hold, manual, native, page, play, processes, random_schedules, record, recorded, sheets, shrink, sweep, texts, trace
from .errors import BenchError, LibraryError
from .inputs import DIFFERENT, NotSo, OutputError, UsageError, check_outputs, settled
from .parsers import Parser, give_up_output

# Each has `register(subparsers)`, which adds its commands; a command's parser has the default `run`, a function of the arguments that gives the exit status.
MODULES = (texts, sheets, trace, page, play, recorded, record, hold, find, shrink, explored, cover, compare, random_schedules, sweep, build, manual, completion)

DESCRIPTION = """\
Runs schedules of the GOLL reader-writer lock, step by step, on the proved library, and shows what they do.

A schedule says which thread makes the next atomic step, with which order. It is a file of bytes, or a text whose name
ends in .txt:

  # Two readers whose swaps of the root collide.
  threads 2
  0: read 0      1: read 0      # both begin a read-lock straight at the root
  0: go          1: go          # both read the root
  0: go          1: go*2        # thread 0 swaps it first: the first swap of thread 1 fails
"""

EPILOG = """\
first steps:
  ./bench trace examples/colliding-readers.schedule.txt     what each row does
  ./bench sheet examples/colliding-readers.schedule.txt     who holds in the end
  ./bench page examples/late-reader.schedule -o late.html   a page to step through a run
  ./bench play                                              a run by hand, in the browser
  ./bench sweep --threads 8 --nodes 1-9 --fan 1-4           which tree for a site of 8 threads
  ./bench find 'thread 2 asleep and root open'              a schedule after which that is so
  ./bench notation                                          how texts are written

exit status:
  0  done; a refused file or row is not a failure: the sheet's first line has the number
  1  the library cannot be built or loaded, or the output cannot be written
  2  the arguments are wrong, or a file cannot be read
  3  a text or a file is not valid; the message says where: FILE:LINE:COLUMN: WHAT
  4  a record or two schedules differ, no schedule is found, an `expect` failed; with --strict,
     a file or a row is refused

The first command that needs the library, and the first after a change of its sources, proves and builds it with rt, and
shows its progress. The variable LOCK_BENCH_LIBRARY can name a shared object to use instead.
"""


class _Parser(Parser):
    """The command's parser, whose help ends in what the library was made from."""

    def print_help(self, file: IO[str] | None = None) -> None:
        super().print_help(file)
        self._print_message("\n" + _identity(), file or sys.stdout)


class _Version(Action):
    """Prints the version, and what the library was made from."""

    def __call__(self, parser: ArgumentParser, namespace: Namespace, values: object, option_string: str | None = None) -> None:
        parser._print_message(_identity(), sys.stdout)
        parser.exit()


def _identity() -> str:
    return "".join(f"{line}\n" for line in native.told())


def parser() -> ArgumentParser:
    """The command's arguments."""
    top = _Parser(prog="bench", description=DESCRIPTION, epilog=EPILOG)
    top.add_argument("--version", action=_Version, nargs=0, help="show the version, the toolchain, and what the library was proved from")
    subparsers = top.add_subparsers(
        title="commands", metavar="COMMAND", required=True, parser_class=Parser, help="`./bench COMMAND --help` says more, with examples"
    )
    for module in MODULES:
        module.register(subparsers)
    return top


def commands() -> dict[str, ArgumentParser]:
    """The parsers of the commands, by name."""
    subparsers = next(action for action in parser()._actions if isinstance(action, _SubParsersAction))
    return dict(subparsers.choices)


def main(argv: Sequence[str] | None = None) -> int:
    """Runs the command, and gives its exit status."""
    processes.hear_interrupts()
    try:
        arguments = _parsed(argv)
        check_outputs(arguments)
        status = settled(arguments, int(arguments.run(arguments)))
        if sys.stdout is not None:
            sys.stdout.flush()
        return status
    except BenchError as error:
        print(f"bench: {error}" if error.where is None else error, file=sys.stderr)
        return 1 if isinstance(error, (LibraryError, OutputError)) else 2 if isinstance(error, UsageError) else DIFFERENT if isinstance(error, NotSo) else 3
    except OSError as error:
        # Whoever closed a pipe has seen enough.
        if not isinstance(error, BrokenPipeError):
            print(f"bench: standard output: {error.strerror}", file=sys.stderr)
        give_up_output()
        return 1
    except KeyboardInterrupt:
        give_up_output()
        return 130


def _parsed(argv: Sequence[str] | None) -> Namespace:
    """The arguments; help is written whole, or that fails."""
    try:
        return parser().parse_args(argv)
    except SystemExit:
        if sys.stdout is not None:
            sys.stdout.flush()
        raise
