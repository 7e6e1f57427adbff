"""Record files: a server's steps, of any number, with the values of the words, which ``record_sheet`` holds to the bench; and the command ``record``.

A record file has N, F and T in a byte each, then eight bytes for each row: thread, order, kind, word, and the value of that word after the row in four bytes,
low byte first. It is mapped into memory and not read; CSV, JSON and hexadecimal are turned into such a file as they are read.
"""

from __future__ import annotations

import io
import json
import mmap
import os
import struct
import sys
import tempfile
import time
from argparse import ArgumentParser, Namespace, _SubParsersAction
from collections.abc import Iterator, Sequence
from concurrent.futures import ThreadPoolExecutor
from contextlib import ExitStack
from dataclasses import dataclass
from typing import IO, Final, NamedTuple

from . import inputs, recorded
from .errors import BenchError
from .journal import SECOND_WORD, Entry
from .native import load
from .progress import Progress
from .recorded import Recorded
from .refusal import RANGES, out_of_range
from .run import Run, states
from .schedule import Row, Schedule, rows_text
from .sheet import REFUSALS, Sheet

#: The bytes before the rows, and those of a row.
HEAD: Final = 3
ROW: Final = 8
#: A row has no value, or it was not recorded.
NO_VALUE: Final = 0xFFFFFFFF
#: The places of a row's fields.
THREAD, WORD = 0, 3
# The root's value is closed + 2 x direct + 131,072 x tree.
_DIRECT: Final = 2
_TREE: Final = 131072
_SIZES: Final = ("nodes", "fan", "threads")
# So many rows are looked through at a time, and copied, and held before a bar shows how far it is.
_ROWS: Final = 1 << 20
_FIELDS: Final = struct.Struct("<4BI")


def packed(row: Recorded) -> bytes:
    """The eight bytes of a row, which has a thread and an order."""
    assert row.thread is not None and row.order is not None
    return _FIELDS.pack(row.thread, row.order, row.kind, row.word, NO_VALUE if row.value is None else row.value)


def has_value(word: int) -> bool:
    """Whether a word has a value: the root or a node of either lock."""
    return word < 2 * SECOND_WORD and word % SECOND_WORD < RANGES["nodes"][1]


def value_text(word: int, value: int | None) -> str:
    """A value as the trace writes the word: the root as (direct, tree, state)."""
    if value is None:
        return "no value"
    if word % SECOND_WORD:
        return f"value {value}"
    return f"value {value} ({value % _TREE // _DIRECT}, {value // _TREE}, {'closed' if value % _DIRECT else 'open'})"


def _value(sheet: Sheet, entry: Entry) -> int | None:
    """The value that a sheet shows of the word of an entry."""
    if not has_value(entry.word):
        return None
    lock = sheet.locks[entry.lock]
    return lock.nodes[entry.place - 1] if entry.place else int(lock.root.closed) + _DIRECT * lock.root.direct + _TREE * (lock.root.tree or 0)


class Held(NamedTuple):
    """What the library says of a record: its sheet; after 11 and 12 the entry and the value that the bench gives."""

    sheet: Sheet
    entry: Entry | None = None
    value: int | None = None

    @classmethod
    def parse(cls, sheet: bytes) -> Held:
        """The sheet of a record, whose second line may be ``entry k w v``."""
        first, second, *rest = sheet.split(b"\n", 2)
        if not second.startswith(b"entry "):
            return cls(Sheet.parse(sheet))
        kind, word, value = second.split()[1:]
        return cls(Sheet.parse(b"\n".join((first, *rest))), Entry(int(kind), int(word)), None if value == b"-" else int(value))


@dataclass(frozen=True)
class RecordFile:
    """A record file in memory of its own, which may be changed: its whole rows, and how many bytes stand behind them."""

    memory: bytearray | mmap.mmap
    name: str

    @property
    def rows(self) -> int:
        """The number of whole rows."""
        return (len(self.memory) - HEAD) // ROW

    @property
    def cut(self) -> int:
        """The bytes of a row that is not whole."""
        return (len(self.memory) - HEAD) % ROW

    def bytes_of(self, first: int, last: int) -> bytes:
        """The bytes of the rows from ``first`` up to ``last``, without it."""
        return bytes(self.memory[HEAD + ROW * first : HEAD + ROW * min(last, self.rows)])

    def row(self, number: int) -> Recorded:
        """A row."""
        thread, order, kind, word, value = _FIELDS.unpack(self.bytes_of(number, number + 1))
        return Recorded(kind, word, thread, order, None if value == NO_VALUE else value)

    def schedule_row(self, number: int) -> Row:
        """The thread and the order of a row."""
        return Row(*self.bytes_of(number, number + 1)[:2])

    def schedule(self, rows: int) -> Schedule:
        """The schedule of the first rows."""
        nodes, fan, threads = self.memory[:HEAD]
        read = self.bytes_of(0, rows)
        return Schedule(nodes, fan, threads, tuple(map(Row, read[::ROW], read[1::ROW])))

    def before(self, row: int, field: int, value: int) -> Iterator[int]:
        """The rows before this one whose field is this byte, the latest first."""
        while row > 0:
            first = max(0, row - _ROWS)
            column = self.memory[HEAD + ROW * first + field : HEAD + ROW * row : ROW]
            at = column.rfind(value)
            while at >= 0:
                yield first + at
                at = column.rfind(value, 0, at)
            row = first

    def held(self) -> Held:
        """What the library says of the whole rows. A bar shows how far it is, by the time that the first rows took."""
        length, library = HEAD + ROW * self.rows, load()
        if self.rows <= _ROWS:
            return Held.parse(library.record_sheet(self.memory, length))
        begun = time.monotonic()
        library.record_sheet(self.memory, HEAD + ROW * _ROWS)
        pace = (time.monotonic() - begun) / _ROWS
        with ThreadPoolExecutor(1) as pool, Progress(self.rows, sys.stderr, "holding") as progress:
            asked, begun = pool.submit(library.record_sheet, self.memory, length), time.monotonic()
            while not asked.done():
                time.sleep(0.02)
                progress.show(min(self.rows - 1, int((time.monotonic() - begun) / pace)))
            return Held.parse(asked.result())

    def instead(self, row: int, rows: bytes) -> Held:
        """What the library says of the rows before this one, followed by these, which are no more than the record's own."""
        start, end = HEAD + ROW * row, HEAD + ROW * row + len(rows)
        own = bytes(self.memory[start:end])
        self.memory[start:end] = rows
        try:
            return Held.parse(load().record_sheet(self.memory, end))
        finally:
            self.memory[start:end] = own


# ---- Read.


def opened(name: str, form: str | None, sizes: dict[str, int]) -> RecordFile:
    """The record in a file, in any of its forms; ``sizes`` are those that the command names, for a record that does not."""
    shown = "<standard input>" if name == inputs.STANDARD else name
    try:
        with _stream(name) as stream:
            head = stream.peek(1 << 12)
            form = form or recorded.form_of(name, head)
            if head and form == "bytes":
                # Before all of a stream is read.
                _check_sizes(head[:HEAD], shown)
            mapped: IO[bytes] = stream if form == "bytes" and os.path.isfile(name) else _bytes_of(stream, form, sizes, shown)
            with mapped:
                if os.fstat(mapped.fileno()).st_size == 0:
                    raise inputs.NotSo("the record is empty", shown)
                memory = mmap.mmap(mapped.fileno(), 0, access=mmap.ACCESS_COPY)
    except OSError as error:
        raise inputs.UsageError(str(error.strerror), shown) from None
    _check_sizes(memory[:HEAD], shown)
    return RecordFile(memory, shown)


def _stream(name: str) -> io.BufferedReader:
    if name != inputs.STANDARD:
        return open(name, "rb")
    if sys.stdin is None:
        raise inputs.UsageError("standard input is closed")
    return open(sys.stdin.fileno(), "rb", closefd=False)


def _check_sizes(head: Sequence[int], name: str) -> None:
    if len(head) < HEAD:
        raise BenchError(f"not a record: {len(head)} bytes, and its sizes alone take {HEAD}", name)
    wrong = [said for size, value in zip(_SIZES, head) if (said := out_of_range(size, value))]
    if wrong:
        raise BenchError(f"not a record: {'; '.join(wrong)}", name)


def _bytes_of(stream: io.BufferedReader, form: str, sizes: dict[str, int], name: str) -> IO[bytes]:
    """A file without a name, with the record's bytes."""
    made = tempfile.TemporaryFile()
    with ExitStack() as unfinished:
        unfinished.callback(made.close)
        _write_parts(made, stream, form, sizes, name)
        unfinished.pop_all()
    return made


def _write_parts(made: IO[bytes], stream: io.BufferedReader, form: str, sizes: dict[str, int], name: str) -> None:
    """Writes the record's bytes."""
    total = os.fstat(stream.fileno()).st_size
    with Progress(max(1, total), sys.stderr if total else None, "reading") as progress:
        try:
            for part in _parts(stream, form, sizes, name):
                made.write(part)
                progress.show(stream.tell() if total else 0)
        except UnicodeDecodeError as error:
            raise BenchError(f"byte {error.object[error.start]:02x} is not UTF-8", name) from None
    if form in ("csv", "json"):
        made.seek(0)
        lacking = [size for size in _SIZES if size not in sizes]
        if lacking:
            raise BenchError(f"the sizes are not in the file: give them with {' and '.join(f'--{size}' for size in lacking)}", name)
        head = [sizes[size] for size in _SIZES]
        _check_sizes(head, name)
        made.write(bytes(head))
    made.flush()


def _parts(stream: io.BufferedReader, form: str, sizes: dict[str, int], name: str) -> Iterator[bytes]:
    """The bytes of a record, part by part; the sizes of CSV and JSON are put in place of the first ones when they are read."""
    if form == "bytes":
        while part := stream.read(_ROWS):
            yield part
        return
    text = io.TextIOWrapper(stream, "utf-8-sig")
    try:
        if form == "hex":
            yield from recorded.hex_bytes(text, name)
            return
        named: dict[str, int] = {}
        yield bytes(HEAD)
        rows = recorded.csv_rows(text, name, named) if form == "csv" else recorded.json_rows(text, name, named)
        for number, row in enumerate(rows):
            if row.thread is None or row.order is None:
                raise BenchError(f"row {number} has no {'thread' if row.thread is None else 'order'}: a record without a schedule needs both", name)
            yield packed(row)
        for size, value in named.items():
            sizes.setdefault(size, value)
    finally:
        # The stream is closed by whoever opened it.
        text.detach()


# ---- Written.


def rows_of(run: Run) -> Iterator[Recorded]:
    """The rows of the record that a run gives, with the values that the library's sheets show."""
    shown = states(run.schedule, run.till)
    next(shown)
    for row, entry, after in zip(run.schedule.rows, run.journal, shown):
        yield Recorded(entry.kind, entry.word, row.thread, row.order, _value(after, entry))


def written(run: Run, form: str) -> bytes:
    """The record that a run gives, in a form."""
    rows, sizes = list(rows_of(run)), {size: int(getattr(run.schedule, size)) for size in _SIZES}
    data = bytes(sizes.values()) + b"".join(map(packed, rows))
    match form:
        case "bytes":
            return data
        case "hex":
            lines = [data[:HEAD].hex(" "), *(data[at : at + ROW].hex(" ") for at in range(HEAD, len(data), ROW))]
        case "csv":
            named = " ".join(f"{size} {number}" for size, number in sizes.items())
            cells = (f"{row.thread},{row.order},{row.kind},{row.word},{'-' if row.value is None else row.value}" for row in rows)
            lines = [f"# {named}", "thread,order,kind,word,value", *cells]
        case _:
            lines = [f'{json.dumps(sizes)[:-1]}, "journal": [', ",\n".join(json.dumps(row._asdict()) for row in rows), "]}"]
    return "".join(f"{line}\n" for line in lines).encode("ascii")


def register(subparsers: _SubParsersAction[ArgumentParser]) -> None:
    """Adds the command ``record``."""
    parser = subparsers.add_parser(
        "record",
        help="write the record that a schedule gives",
        description="Runs a schedule and writes the record of a server whose lock behaves as the bench: thread, order, kind and word of each\n"
        "row taken, and the value of that word after it. ./bench hold reads it. A FILE that ends in .csv, .json or .hex has that\n"
        "form; every other has the bytes of a record, N, F and T and then eight for each row (docs/RECORDING.md).",
        epilog="example:\n"
        "  ./bench record --dispatch examples/writer-and-reader.wants -o both.record &&\n"
        "    ./bench hold both.record\n"
        "  ./bench record examples/worked-example.schedule -o worked.csv && ./bench hold --prefix worked.csv",
    )
    inputs.add_input(parser, "the schedule")
    inputs.add_strict(parser)
    inputs.add_dispatch(parser, "FILE")
    parser.add_argument("-o", dest="output", metavar="FILE", required=True, help="the file to write; - is standard output")
    parser.set_defaults(run=_record, till=None)


def _record(arguments: Namespace) -> int:
    run = inputs.taken_run(arguments, "no record")
    answer = run.sheet.answer
    if answer:
        refused = f"the next is refused with {answer}, {REFUSALS[answer]}"
        print(f"{inputs.input_name(arguments)}: the record has {rows_text(run.sheet.taken)}: {refused}", file=sys.stderr)
    inputs.write(arguments.output, written(run, recorded.form_of(arguments.output, b"")))
    return 0
