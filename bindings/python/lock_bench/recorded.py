"""Journals as files: bytes, hexadecimal, CSV and JSON, written by the command ``journal``, and read again, also those that a server recorded.

A record has a kind and a word for each row. CSV and JSON may name the row's number, its thread and its order beside them, which are then held to the
schedule's, and the value of the word. One that has threads and orders for all rows, and sizes, needs no schedule beside it (``record``): ``csv_rows``,
``json_rows`` and ``hex_bytes`` read it piece by piece, whatever its length.
"""

from __future__ import annotations

import csv
import io
import json
import re
import sys
from argparse import ArgumentParser, Namespace, _SubParsersAction
from collections.abc import Callable, Iterable, Iterator
from itertools import chain
from typing import Final, NamedTuple, TextIO, TypeGuard

from . import inputs, journal, notation, orders
from .errors import BenchError, NotationError
from .journal import KINDS, NO_ENTRY, kind_text, word_text
from .reader import line_and_column, quoted, range_text, unknown
from .run import Run
from .sheet import REFUSALS

#: The forms of a journal, by the ending of a file's name; every other file has bytes.
FORMS: Final = ("bytes", "hex", "csv", "json")
_COLUMNS: Final = ("row", "thread", "order", "kind", "word")
# Behind the numbers, what people call them.
_NAMES: Final = ("order_name", "kind_name", "word_name")


class Recorded(NamedTuple):
    """A row of a record: its kind and word, and its thread, its order and the value of its word where the record has them."""

    kind: int
    word: int
    thread: int | None = None
    order: int | None = None
    value: int | None = None


class Record(NamedTuple):
    """A record: its rows, what is to be said of how it was read, and whether its bytes are fewer than its schedule asks for."""

    rows: tuple[Recorded, ...]
    notes: tuple[str, ...] = ()
    short: bool = False


# ---- Written.


def rows_of(run: Run) -> Iterator[dict[str, int | str]]:
    """What is written of each row taken: numbers, and their names."""
    for number, (row, entry) in enumerate(zip(run.schedule.rows, run.journal)):
        yield {
            "row": number,
            "thread": row.thread,
            "order": row.order,
            "kind": entry.kind,
            "word": entry.word,
            "order_name": orders.words(row.order),
            "kind_name": kind_text(entry.kind),
            "word_name": word_text(entry.word),
        }


def to_bytes(run: Run) -> bytes:
    """The journal's 2 x S bytes."""
    return run.journal.to_bytes(len(run.schedule.rows))


def to_hex(run: Run) -> str:
    """The journal's bytes in hexadecimal: a line of kinds, a line of words."""
    data, rows = to_bytes(run), len(run.schedule.rows)
    return f"{data[:rows].hex(' ')}\n{data[rows:].hex(' ')}\n"


def to_csv(run: Run) -> str:
    """A line for each row taken."""
    out = io.StringIO()
    table = csv.DictWriter(out, (*_COLUMNS, *_NAMES), lineterminator="\n")
    table.writeheader()
    table.writerows(rows_of(run))
    return out.getvalue()


def to_json(run: Run) -> str:
    """Sizes, answer and rows, a line for each row."""
    schedule, sheet = run.schedule, run.sheet
    head = {"nodes": schedule.nodes, "fan": schedule.fan, "threads": schedule.threads, "rows": len(schedule.rows), "answer": sheet.answer, "taken": sheet.taken}
    rows = ",\n".join(json.dumps(row) for row in rows_of(run))
    return f'{json.dumps(head)[:-1]}, "journal": [\n{rows}\n]}}\n'


_WRITTEN: Final[dict[str, Callable[[Run], str]]] = {"hex": to_hex, "csv": to_csv, "json": to_json}


def written(run: Run, form: str) -> bytes:
    """The journal in a form."""
    return to_bytes(run) if form == "bytes" else _WRITTEN[form](run).encode("ascii")


def table(run: Run) -> Iterator[str]:
    """The journal for people: a line for each row taken, in numbers and words."""
    lines: list[tuple[str, ...]] = [_COLUMNS]
    for row in rows_of(run):
        named = (f"{row[name]:>{width}} {row[f'{name}_name']}" for name, width in (("order", 3), ("kind", 2), ("word", 2)))
        lines.append((f"{row['row']}", f"{row['thread']}", *named))
    widths = [max(len(line[column]) for line in lines) for column in range(5)]
    for number, thread, order, kind, word in lines:
        yield f"{number:>{widths[0]}}  {thread:>{widths[1]}}  {order:<{widths[2]}}  {kind:<{widths[3]}}  {word}"


# ---- Read.


def form_of(name: str, data: bytes) -> str:
    """The form of a record: what its name's ending says, else what its bytes look like."""
    ending = name.rsplit(".", 1)[-1].lower()
    if ending in FORMS[1:]:
        return ending
    if ending == "record" or not data or not all(byte >= 0x20 or byte in b"\t\n\r" for byte in data):
        return "bytes"
    if data.lstrip()[:1] in (b"{", b"["):
        return "json"
    return "hex" if re.fullmatch(rb"(?:\s|#[^\n]*|0x|kinds|words|[0-9A-Fa-f,])*", data) else "csv"


def read(data: bytes, form: str, rows: int, name: str) -> list[Record]:
    """The record in a file's bytes. ``rows`` is the number of rows of its schedule: in a journal of as many bytes the words begin behind as many kinds.

    Fewer bytes may be a journal of fewer rows, or one that is cut off: then there are both.
    """
    if form == "bytes":
        return _of_bytes(data, rows, name)
    text = notation.decoded(data, name)
    return _of_hex(text, rows, name) if form == "hex" else [{"csv": _of_csv, "json": _of_json}[form](text, name)]


def _of_bytes(data: bytes, rows: int, name: str) -> list[Record]:
    length, due = len(data), 2 * rows
    if length > due:
        return [_journal_of(data, rows, rows, rows, f"the record has {length} bytes; of a journal of {rows} rows the first {due} are taken")]
    if length == due:
        return [_journal_of(data, rows, rows, rows)]
    if length % 2 and length <= rows:
        raise BenchError(f"{length} bytes, an odd number: a journal has a kind and a word for each row", name)
    said = f"the record has {length} bytes, and a journal of {rows} rows has {due}: read as "
    shorter = [] if length % 2 else [_journal_of(data, length // 2, length // 2, rows, f"{said}one of {length // 2} rows")]
    cut = [_journal_of(data, rows, length - rows, rows, f"{said}one that is cut off in its words")] if length > rows else []
    return shorter + cut


def _journal_of(data: bytes, place: int, count: int, rows: int, note: str | None = None) -> Record:
    """So many rows of a journal whose words begin at this place, beside a schedule of ``rows`` rows."""
    kinds, words = data[:count], data[place : place + count]
    while count and kinds[count - 1] == NO_ENTRY and words[count - 1] == NO_ENTRY:
        count -= 1
    return Record(tuple(map(Recorded, kinds[:count], words[:count])), () if note is None else (note,), len(data) < 2 * rows)


def _of_hex(text: str, rows: int, name: str) -> list[Record]:
    data = bytearray()
    # Where the label `words` stands, if there is one.
    words: int | None = None
    for found in re.finditer(r"#[^\n]*|[^\s,]+", text):
        token, place = found[0], found.start()
        if token == "words":
            words = len(data)
        elif token != "kinds" and not token.startswith("#"):
            digits = token.removeprefix("0x")
            if not re.fullmatch("(?:[0-9A-Fa-f]{2})+", digits):
                raise NotationError(f"not bytes in hexadecimal, two digits each: '{token[:20]}'", name, *line_and_column(text, place))
            data += bytes.fromhex(digits)
    if words is not None and len(data) != 2 * words:
        raise BenchError(f"{words} kinds, but {len(data) - words} words", name)
    return _of_bytes(bytes(data), rows, name)


def _of_csv(text: str, name: str) -> Record:
    return Record(tuple(csv_rows(text.splitlines(), name, {})))


def csv_rows(text: Iterable[str], name: str, sizes: dict[str, int]) -> Iterator[Recorded]:
    """The rows in the lines of a CSV file. A line before that of the columns, ``# nodes 2 fan 1 threads 3``, names ``sizes``."""
    lines, before, head = iter(text), 0, ""
    for line in lines:
        head = line.removeprefix("\ufeff")
        if not head.startswith("#"):
            break
        sizes |= {size: int(number) for size, number in re.findall(r"\b(nodes|fan|threads) ([0-9]{1,3})\b", head)}
        before, head = before + 1, ""
    delimiter = next((mark for mark in ",;\t" if mark in head), ",")
    reader = csv.reader(chain([head] if head else [], lines), delimiter=delimiter)
    count = 0
    try:
        columns = [column.strip().lower() for column in next(reader, [])]
        for column in ("kind", "word"):
            if columns.count(column) != 1:
                raise NotationError(f"the first line must name the columns, with '{column}' exactly once", name, before + 1, 1)
        for cells in reader:
            if cells:
                row: dict[str, object] = dict(zip(columns, (cell.strip() for cell in cells)))
                yield _row(row, count, f"{name}:{before + reader.line_num}")
                count += 1
    except csv.Error as error:
        raise BenchError(str(error), f"{name}:{before + reader.line_num}") from None


# So much of a text is read at a time: far more than a row has.
_PART: Final = 1 << 16
_TOO_DEEP: Final = "too many nested brackets"
_DIGITS: Final = 20
_BETWEEN: Final = re.compile(r"\s*([,\]])\s*")


def json_rows(text: TextIO, name: str, sizes: dict[str, int]) -> Iterator[Recorded]:
    """The rows of a JSON file, one at a time: a list of them, or an object with the list as ``journal`` and the sizes before it, which names ``sizes``."""
    head, bracket, held = text.read(_PART).partition("[")
    if not bracket or head.strip() and not re.search(r'"journal"\s*:\s*$', head):
        raise BenchError("expected a list of rows, or an object with the sizes and such a list as 'journal'", name)
    if head.strip():
        found = _whole(f"{head}null}}", name)
        sizes |= {size: _number(found[size], size, name) for size in ("nodes", "fan", "threads") if isinstance(found, dict) and size in found}
    decoder, count, held, at = json.JSONDecoder(parse_int=_whole_number), 0, held.lstrip(), 0
    mark, at = ("]", 1) if held.startswith("]") else (",", 0)
    while mark == ",":
        try:
            row, end = decoder.raw_decode(held, at)
            between = _BETWEEN.match(held, end)
            if between is None:
                raise json.JSONDecodeError("Expecting ',' delimiter", held, end)
        except (json.JSONDecodeError, RecursionError) as error:
            part = text.read(_PART)
            if not part or len(held) - at > _PART:
                raise BenchError(f"not JSON: {getattr(error, 'msg', _TOO_DEEP)}", f"{name}, row {count}") from None
            held, at = (held[at:] + part).lstrip(), 0
            continue
        yield _row(row if isinstance(row, dict) else _pair(row), count, f"{name}, row {count}")
        count, mark, at = count + 1, between[1], between.end()
    _whole(f"{head}null{held[at:]}{text.read(_PART)}", name)


def _whole(text: str, name: str) -> object:
    try:
        return json.loads(text, parse_int=_whole_number)
    except (json.JSONDecodeError, RecursionError) as error:
        raise BenchError(f"not JSON around the rows: {getattr(error, 'msg', _TOO_DEEP)}", name) from None


def _whole_number(digits: str) -> int | str:
    """A number of JSON; one with more digits than any has stays a text, which is then no number."""
    return int(digits) if len(digits) <= _DIGITS else digits


def hex_bytes(text: TextIO, name: str) -> Iterator[bytes]:
    """The bytes of a hexadecimal file, line by line or, where a line is long, part by part."""
    comment, odd = False, ""
    while part := text.readline(_PART):
        plain, mark, _ = ("", "", "") if comment else part.partition("#")
        comment = bool(comment or mark) and not part.endswith("\n")
        digits = odd + re.sub(r"0x|[\s,]", "", plain)
        found = re.search("[^0-9A-Fa-f]", digits)
        if found is not None:
            raise BenchError(f"not bytes in hexadecimal, two digits each: '{digits[found.start() :][:20]}'", name)
        digits, odd = digits[: len(digits) // 2 * 2], digits[len(digits) // 2 * 2 :]
        yield bytes.fromhex(digits)
    if odd:
        raise BenchError(f"the last byte has only one digit, '{odd}'", name)


def _of_json(text: str, name: str) -> Record:
    try:
        found: object = json.loads(text, parse_int=_whole_number)
    except json.JSONDecodeError as error:
        raise NotationError(f"not JSON: {error.msg}", name, error.lineno, error.colno) from None
    except RecursionError:
        raise BenchError(f"not JSON: {_TOO_DEEP}", name) from None
    if isinstance(found, dict):
        kinds, words = found.get("kinds"), found.get("words")
        if _is_list(kinds) and _is_list(words):
            if len(kinds) != len(words):
                raise BenchError(f"{len(kinds)} kinds, but {len(words)} words", name)
            found = [{"kind": kind, "word": word} for kind, word in zip(kinds, words)]
        else:
            found = found.get("journal")
    if not _is_list(found):
        raise BenchError("expected a list of rows, each with 'kind' and 'word', or an object with such a list as 'journal'", name)
    return Record(tuple(_row(row if isinstance(row, dict) else _pair(row), number, f"{name}, row {number}") for number, row in enumerate(found)))


def _is_list(value: object) -> TypeGuard[list[object]]:
    return isinstance(value, list)


def _pair(row: object) -> dict[str, object]:
    """A row that is a list of two: kind and word."""
    return {"kind": row[0], "word": row[1]} if _is_list(row) and len(row) == 2 else {}


def _row(row: dict[str, object], number: int, where: str) -> Recorded:
    """A row of a record by its columns."""
    if "row" in row and _number(row["row"], "row", where) != number:
        raise BenchError(f"expected row {number}, found row {row['row']}: is one lost, or out of place?", where)
    for column in ("kind", "word"):
        if row.get(column) in (None, ""):
            raise BenchError(f"row {number} has no {column}", where)
    return Recorded(
        _number(row["kind"], "kind", where, _KIND_NUMBERS),
        _number(row["word"], "word", where, _WORD_NUMBERS),
        None if row.get("thread") in (None, "") else _number(row["thread"], "thread", where),
        None if row.get("order") in (None, "") else _order(row["order"], where),
        None if row.get("value") in (None, "", "-") else _number(row["value"], "value", where),
    )


# The most of a number; of the others a byte's.
_MOST: Final = {"row": 0xFFFFFFFF, "value": 0xFFFFFFFF}
_KIND_NUMBERS: Final = {name: kind for kind, name in KINDS.items()}
_WORD_NUMBERS: Final = {word_text(word): word for word in range(2 * journal.SECOND_WORD) if word % journal.SECOND_WORD <= journal.NO_WORD}


def _number(value: object, name: str, where: str, names: dict[str, int] | None = None) -> int:
    """A number, as a number, as digits or by its name."""
    if isinstance(value, str):
        if names is not None and value in names:
            return names[value]
        if re.fullmatch("[0-9]{1,10}", value, re.ASCII):
            value = int(value)
    if not isinstance(value, int) or isinstance(value, bool) or not 0 <= value <= _MOST.get(name, 0xFF):
        if names is not None:
            raise BenchError(unknown(value, names, name) if isinstance(value, str) else f"unknown {name} {str(value)[:40]}", where)
        raise BenchError(range_text(name, quoted(str(value)), 0, _MOST.get(name, 0xFF)), where)
    return value


def _order(value: object, where: str) -> int:
    try:
        return orders.order_of(str(value))
    except BenchError as error:
        raise BenchError(error.what, where) from None


# ---- The command.


def register(subparsers: _SubParsersAction[ArgumentParser]) -> None:
    """Adds the command ``journal``."""
    parser = subparsers.add_parser(
        "journal",
        help="print the journal of a schedule",
        description="Runs a schedule and prints its journal, a line for each row: what the row did (its kind) and on which word, in numbers\n"
        "and words. -o FILE gets the journal's 2 x S bytes, all kinds and then all words, ee where a row was not run; a FILE\n"
        "that ends in .hex, .csv or .json has that form. ./bench hold reads each of them.",
        epilog="example:\n"
        "  ./bench journal examples/colliding-readers.schedule\n"
        "  ./bench journal --csv examples/two-locks.schedule\n"
        "  ./bench journal -o late.journal examples/late-reader.schedule &&\n"
        "    ./bench hold examples/late-reader.schedule late.journal\n"
        "  ./bench journal --hex --till examples/one-song-charged-once.till \\\n"
        "    examples/one-song-charged-once.bookings",
    )
    inputs.add_run(parser)
    forms = parser.add_mutually_exclusive_group()
    forms.add_argument("--csv", dest="form", action="store_const", const="csv", help="as CSV: row, thread, order, kind, word, and their names")
    forms.add_argument("--json", dest="form", action="store_const", const="json", help="as JSON: sizes, answer and rows")
    forms.add_argument("--hex", dest="form", action="store_const", const="hex", help="the bytes in hexadecimal, a line of kinds and a line of words")
    parser.add_argument("-o", dest="output", metavar="FILE", help="the file to write: the bytes, if neither an option nor the name's ending says otherwise")
    parser.set_defaults(run=_journal)


def _journal(arguments: Namespace) -> int:
    end, ran = inputs.run_of(arguments)
    if ran is None:
        raise inputs.refused_whole("no journal", end.answer, inputs.input_name(arguments))
    form = arguments.form
    if form is None and arguments.output is not None:
        form = form_of(arguments.output, b"")
    if form == "bytes" and arguments.output == inputs.STANDARD and sys.stdout is not None and sys.stdout.isatty():
        raise inputs.UsageError("bytes are not written to a terminal: name a file with -o FILE, or see --hex")
    if form is None:
        why = f": {REFUSALS[end.answer]}" if end.answer else ""
        data = "".join(f"{line}\n" for line in (*table(ran), f"answer {end.answer} at {end.taken}{why}")).encode("ascii")
    else:
        data = written(ran, form)
    inputs.write(arguments.output, data)
    return 0
