"""What the commands read and write: files, texts, standard input and output.

A file whose name ends in ``.txt`` is a text in the notation; every other file has the bytes that the library reads. ``--text`` makes standard input, or a
file of any name, a text; ``-e TEXT`` gives the text itself.
"""

from __future__ import annotations

import os
import re
import stat
import sys
from argparse import ArgumentParser, ArgumentTypeError, Namespace, _ArgumentGroup
from collections.abc import Callable, Iterable, Iterator
from pathlib import Path
from typing import BinaryIO, Final

from . import notation, orders, refusal
from .errors import BenchError
from .native import load
from .orders import GO_ON
from .reader import quoted
from .run import Run, run
from .schedule import Schedule
from .script import Read
from .sheet import REFUSALS, ROW_REFUSALS, Sheet, answer_of, sheet_lines
from .ticket import TicketSchedule
from .till import Till

#: The ending of the names of texts.
TEXT: Final = ".txt"
#: The name of standard input, and of standard output.
STANDARD: Final = "-"
#: The exit status of what is not as it is said to be: a record, an expectation, a refusal where there is to be none.
DIFFERENT: Final = 4
# No more is read of a file, which is refused then just as its beginning is: far more than the longest that is taken has.
_MOST_BYTES: Final = 1 << 24
# Far more than the text of the longest file has.
_MOST_TEXT: Final = 4_194_304
# The arguments that name what a command reads, and those that name what it writes.
READ: Final = ("file", "other", "journal", "till", "wants", "hold", "sheet", "merge")
WRITTEN: Final = ("output", "csv", "json", "svg", "page", "picture", "record")


class UsageError(BenchError):
    """The arguments are wrong, or a file cannot be read."""


class NotSo(BenchError):
    """What was asked for is not so, or not to be had: exit status 4."""


class OutputError(BenchError):
    """The output cannot be written."""


def add_input(parser: ArgumentParser, what: str) -> None:
    """Adds the arguments that name the input: a file, standard input, or a text."""
    parser.add_argument("file", metavar="FILE", nargs="?", help=file_help(what))
    parser.add_argument("-e", dest="given", metavar="TEXT", help="the text itself, instead of FILE")
    add_as_text(parser, "FILE")


def file_help(what: str) -> str:
    """What is told of an argument that names a file."""
    return f"{what}: a text if its name ends in {TEXT}, else the bytes; - is standard input"


def add_as_text(parser: ArgumentParser, file: str) -> None:
    """Adds the argument that makes a file a text."""
    parser.add_argument("--text", action="store_true", help=f"{file} is a text, whatever its name")


def add_dispatch(parser: ArgumentParser, file: str) -> None:
    """Adds the argument that makes the rows of a file wanted calls."""
    said = f"{file} has wanted calls; the schedule is what the dispatcher makes of them"
    parser.add_argument("--dispatch", action="store_true", help=said)


def add_jobs(group: _ArgumentGroup) -> None:
    """Adds the argument that says how many processes share the work."""
    said = "the number of processes that share the work (one per core)"
    group.add_argument("--jobs", metavar="J", type=whole(1, 1024), help=said)


def jobs(arguments: Namespace) -> int:
    """How many processes share the work."""
    return arguments.jobs or len(os.sched_getaffinity(0))


def add_text_input(parser: ArgumentParser) -> None:
    """Adds the arguments that name an input that is always a text."""
    parser.add_argument("file", metavar="TEXT", nargs="?", help="the file with the text, of any name; - is standard input")
    parser.add_argument("-e", dest="given", metavar="TEXT", help="the text itself, instead of a file")
    parser.set_defaults(text=True)


def add_till(parser: ArgumentParser) -> None:
    """Adds the argument that names the till beside the schedule."""
    parser.add_argument("--till", metavar="FILE", help=f"the till, for the orders `book`: a text if its name ends in {TEXT}, else the bytes")


def add_run(parser: ArgumentParser) -> None:
    """Adds the arguments that name a run: a schedule, with a till or without, or wanted calls."""
    add_input(parser, "the schedule")
    add_till(parser)
    add_strict(parser)
    add_dispatch(parser, "FILE")


def add_strict(parser: ArgumentParser) -> None:
    """Adds the argument that makes a refusal a failure."""
    parser.add_argument("--strict", action="store_true", help=f"exit status {DIFFERENT} if the file or a row is refused")


def whole(least: int, most: int) -> Callable[[str], int]:
    """The type of an argument that is a whole number within bounds."""

    def number(text: str) -> int:
        if not re.fullmatch("[0-9]{1,10}", text, re.ASCII) or not least <= int(text) <= most:
            raise ArgumentTypeError(f"must be a whole number from {least} to {most}, not '{text}'")
        return int(text)

    return number


def input_name(arguments: Namespace) -> str:
    """The input's name, for messages and titles."""
    if arguments.given is not None:
        return "<text>"
    return "<standard input>" if arguments.file in (None, STANDARD) else str(arguments.file)


def is_text(arguments: Namespace) -> bool:
    """Whether the input is a text."""
    return arguments.given is not None or arguments.text or str(arguments.file).endswith(TEXT)


def input_text(arguments: Namespace) -> str:
    """The input, which is a text."""
    if arguments.given is not None:
        if arguments.file is not None:
            raise UsageError("give a file or -e TEXT, not both")
        return str(arguments.given)
    return read_text(arguments.file, input_name(arguments))


def input_bytes(arguments: Namespace, tickets: bool = False) -> bytes:
    """The bytes of a schedule, or of a file of the ticket lock: those of the file, whatever they are, or of what the text stands for."""
    if not is_text(arguments):
        return read(arguments.file, _MOST_BYTES)
    text, name = input_text(arguments), input_name(arguments)
    if tickets:
        return notation.parse_tickets(text, name).to_bytes()
    script = notation.parse_script(text, name)
    if getattr(arguments, "dispatch", False) or getattr(arguments, "calls", False):
        script.check_calls()
    arguments.text_read = script.read(till_bytes(arguments) if script.asks() else None)
    return arguments.text_read.schedule.to_bytes()


def till_bytes(arguments: Namespace) -> bytes | None:
    """The bytes of the till, if one is named."""
    if getattr(arguments, "till", None) is None:
        return None
    if arguments.till.endswith(TEXT):
        return notation.parse_till(read_text(arguments.till, arguments.till), arguments.till).to_bytes()
    return read(arguments.till, _MOST_BYTES)


def run_of(arguments: Namespace) -> tuple[Sheet, Run | None]:
    """The sheet of the run that ``add_run``'s arguments name, and the run; there is none where the file is refused as a whole."""
    if arguments.dispatch and arguments.till is not None:
        raise UsageError("--dispatch and --till exclude each other: the dispatcher has no till")
    file, till = input_bytes(arguments), till_bytes(arguments)
    library = load()
    if arguments.dispatch:
        sheet, given = library.dispatch_sheet(file)
    else:
        sheet, given = library.sheet(file, till).sheet, file
    explain_refusal(arguments, file, sheet, till)
    end = Sheet.parse(sheet)
    arguments.ended = end.answer, end.taken
    if arguments.dispatch:
        explain_call(arguments, file, sheet, given)
    return end, run(Schedule.from_bytes(given), None if till is None else Till.from_bytes(till), library) if end.locks else None


def taken_run(arguments: Namespace, lacking: str) -> Run:
    """The run that ``add_run``'s arguments name; ``lacking`` says what there is not where the file is refused whole."""
    end, ran = run_of(arguments)
    if ran is None:
        raise refused_whole(lacking, end.answer, input_name(arguments))
    return ran


def refused_whole(lacking: str, answer: int, name: str) -> BenchError:
    return BenchError(f"{lacking}: the file is refused with {answer}: {REFUSALS[answer]}", name)


def explain_call(arguments: Namespace, wants: bytes, sheet: bytes, given: bytes) -> None:
    """Says which wanted call the dispatcher refused, where it did."""
    end = Sheet.parse(sheet)
    if end.answer not in ROW_REFUSALS:
        return
    number = refusal.refused_call(wants, end, Schedule.from_bytes(given), lambda file: answer_of(sheet_lines(load().dispatch_sheet(file).sheet)[0])[0])
    row = Schedule.from_bytes(wants).rows[number]
    text: Read | None = getattr(arguments, "text_read", None)
    hint = " (this looks like a schedule: each row of wanted calls is a whole call)" if end.answer == 6 and row.order == GO_ON else ""
    where = input_name(arguments) if text is None else text.places[number]
    print(f"{where}: row {number}, '{row.thread}: {orders.words(row.order)}', is refused with {end.answer}: {REFUSALS[end.answer]}{hint}", file=sys.stderr)


def settled(arguments: Namespace, status: int) -> int:
    """The exit status in the end. It is 4 where a text expects what is not so, and, with --strict, where something is refused; both are said."""
    answer, taken = getattr(arguments, "ended", (0, 0))
    text: Read | None = getattr(arguments, "text_read", None)
    places = () if text is None or getattr(arguments, "dispatch", False) else text.places
    if answer in ROW_REFUSALS and taken < len(places):
        print(f"{places[taken]}: row {taken} is refused with {answer}: {REFUSALS[answer]}", file=sys.stderr)
    elif answer and getattr(arguments, "strict", False) and not (answer in ROW_REFUSALS and getattr(arguments, "dispatch", False)):
        print(f"{input_name(arguments)}: refused with {answer}: {REFUSALS[answer]}", file=sys.stderr)
    unmet = () if text is None else text.unmet
    for error in unmet:
        print(error, file=sys.stderr)
    return DIFFERENT if status == 0 and (unmet or answer and getattr(arguments, "strict", False)) else status


def document_of(arguments: Namespace, kind: str | None) -> notation.Document:
    """What the input stands for. The kind of a file of bytes is the one named, else the one that its name's ending says, else a schedule."""
    name = input_name(arguments)
    if is_text(arguments):
        return notation.parse_any(input_text(arguments), name)
    data = read(arguments.file, _MOST_BYTES)
    match kind or Path(name).suffix.removeprefix("."):
        case "tickets":
            return TicketSchedule.from_bytes(data, name)
        case "till":
            return Till.from_bytes(data, name)
        case _:
            return Schedule.from_bytes(data, name)


def read(name: str | None, most: int) -> bytes:
    """The bytes of a file, or of standard input, at most this many."""
    try:
        if name in (None, STANDARD):
            if sys.stdin is None:
                raise UsageError("standard input is closed")
            if name is None and sys.stdin.isatty():
                raise UsageError("no file given (see --help)")
            return sys.stdin.buffer.read(most)
        with open(str(name), "rb") as file:
            return file.read(most)
    except OSError as error:
        raise UsageError(str(error.strerror), "standard input" if name in (None, STANDARD) else name or "''") from None


def read_text(name: str | None, shown: str) -> str:
    """The text of a file, or of standard input; ``shown`` is its name in messages."""
    data = read(name, _MOST_TEXT + 1)
    if len(data) > _MOST_TEXT:
        raise BenchError(f"the text is longer than {_MOST_TEXT:,} bytes", shown)
    return notation.decoded(data, shown)


def explain_refusal(arguments: Namespace, file: bytes, sheet: bytes, till: bytes | None = None, kind: str = "schedule") -> None:
    """Says what is wrong with a file or a till that is refused as a whole, and what it looks like."""
    if sheet.count(b"\n") != 1:
        return
    if sheet.startswith(b"answer 10 "):
        kind, name, data, as_text = "till", str(arguments.till), till or b"", arguments.till.endswith(TEXT)
    else:
        name, data, as_text = input_name(arguments), file, is_text(arguments)
    if not as_text and data and _looks_like_text(data):
        said: str | None = f"this looks like a text: give it a name that ends in {TEXT}" + ("" if kind == "till" else ", or use --text")
    elif not as_text and (other := refusal.looks_like(data)) is not None and not refusal.has_length(kind, data):
        said = f"this looks like {_LOOKS[other]}"
    else:
        said = refusal.why(kind, data)
    if said is not None:
        print(f"{name}: {said}", file=sys.stderr)


# What a file looks like that was given for another.
_LOOKS: Final = {
    "schedule": "a schedule: use `bench sheet`",
    "tickets": "a file of the ticket lock: use `bench ticket`",
    "till": "a till, which goes beside a schedule: `bench sheet --till TILL SCHEDULE`",
}


def _looks_like_text(data: bytes) -> bool:
    return all(byte >= 0x20 or byte in b"\t\n\r" for byte in data)


def standard_output() -> BinaryIO:
    """Standard output, for bytes."""
    if sys.stdout is None:
        raise OutputError("standard output is closed")
    sys.stdout.flush()
    return sys.stdout.buffer


def write_lines(lines: Iterable[str]) -> None:
    """Writes lines to standard output: a file's name by its own bytes, and signs that the locale lacks in others."""
    text = "".join(f"{line}\n" for line in lines)
    write(None, (text if _has_signs() else text.replace("\xb1", "+-")).encode("utf-8", "surrogateescape"))


def _has_signs() -> bool:
    """Whether the user's locale has more signs than those of ASCII: where it is not UTF-8, none is counted on."""
    named = next((value for name in ("LC_ALL", "LC_CTYPE", "LANG") if (value := os.environ.get(name))), "")
    return named.lower().partition(".")[2].partition("@")[0] in ("utf-8", "utf8")


def shown_name(name: str) -> str:
    """A file's name without its folder, for a title: bytes that are not UTF-8 are replaced."""
    return os.fsencode(Path(name).name).decode("utf-8", "replace")


def title_of(name: str) -> str:
    """The same without its endings: late-reader.schedule.txt is "late-reader"."""
    return shown_name(name).removesuffix(TEXT).rsplit(".", 1)[0]


def check_text(text: str, name: str) -> None:
    """Raises where an argument that is shown to people is not UTF-8."""
    try:
        text.encode("utf-8")
    except UnicodeEncodeError as error:
        raise UsageError(f"{name}: unexpected {quoted(text[error.start])}") from None


def check_outputs(arguments: Namespace) -> None:
    """Raises where a command would write over what it reads, by whatever name, or two outputs to one file."""
    taken: dict[object, str | None] = {}
    for name in _names(arguments, READ):
        taken.setdefault(_identity(name), None if name == STANDARD else name)
    written: dict[object, str] = {}
    for name in _names(arguments, WRITTEN):
        file = _identity(name) if name != STANDARD else STANDARD
        if file in taken:
            by = "" if taken[file] == name else f", {taken[file] or 'standard input'}"
            raise UsageError(f"would overwrite its own input{by}", name)
        if file in written:
            raise UsageError("two outputs cannot go to the same file" if name != STANDARD else "two outputs cannot both go there", "standard output" if name == STANDARD else name)
        written[file] = name


def _names(arguments: Namespace, of: Iterable[str]) -> Iterator[str]:
    """The files that some arguments name; standard input where the one that names the input is not given."""
    for name in of:
        value = getattr(arguments, name, None)
        if name == "file" and hasattr(arguments, name) and value is None and getattr(arguments, "given", None) is None:
            value = STANDARD
        yield from [value] if isinstance(value, str) else value if isinstance(value, list) else []


def _identity(name: str) -> object:
    """What tells a file from every other, whatever its names: a regular file's number on its device; of what is not there yet, its full name."""
    try:
        found = os.fstat(0) if name == STANDARD else os.stat(name)
    except (OSError, ValueError):
        return os.path.realpath(name) if "\0" not in name else name
    # What is written to a device or a pipe is not what was read from it.
    return (found.st_dev, found.st_ino) if stat.S_ISREG(found.st_mode) else object()


def write(name: str | None, data: bytes) -> None:
    """Writes a file whole or not at all; - or no name is standard output."""
    if name in (None, STANDARD):
        out = standard_output()
        out.write(data)
        out.flush()
        return
    path = Path(str(name))
    try:
        if path.exists() and not path.is_file():
            # A device or a pipe is written in place.
            path.write_bytes(data)
            return
        # Behind a link it is the link's target that is written.
        target = path.resolve()
        new = target.with_name(f".{target.name}.{os.getpid()}.new")
        try:
            new.write_bytes(data)
            new.replace(target)
        finally:
            new.unlink(missing_ok=True)
    except OSError as error:
        raise OutputError(str(error.strerror), str(name)) from None
