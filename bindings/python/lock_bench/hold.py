"""The command ``hold``: a server's record of its own steps, held to the bench.

A record stands alone (``record``), of any length, or is a journal beside the schedule that it is of. The library says which row differs and what the state
before it is; a guess at a row that is missing, doubled or out of its place is one that the library takes. Nothing here computes a state of the lock.
"""

from __future__ import annotations

import time
from argparse import ArgumentParser, Namespace, _SubParsersAction
from collections.abc import Iterator, Sequence
from itertools import islice
from typing import Final, NamedTuple

from . import inputs, journal, orders, page, record, recorded, refusal
from .errors import BenchError
from .find import add_sizes
from .journal import Entry, kind_text, word_text
from .native import load
from .record import Held, RecordFile
from .recorded import FORMS, Record, Recorded
from .refusal import RANGES
from .run import Run, run, states
from .schedule import Row, rows_text, same_before
from .sheet import LockState, Sheet
from .trace import Table, differences, refusal_text, refused_text, rows_told

# More bytes than a journal of the most rows has in any form.
_MOST_BYTES: Final = 1 << 24
# The most rows of a schedule, which shows the states around a row.
_MOST_ROWS: Final = RANGES["rows"][1]
# So many rows are shown before the one that differs.
_BEFORE: Final = 10
# A guess makes so many rows right that follow, or all where there are fewer, and no fewer than these.
_RIGHT: Final = 100
_FEWEST: Final = 10
# Seconds after which no further guess is tried: each holds the record up to there.
_PATIENCE: Final = 10.0


class Difference(NamedTuple):
    """The first row at which a record differs: what it says there, and the entry and the value that the bench gives; none where it takes no such row."""

    row: int
    recorded: Recorded
    entry: Entry | None
    value: int | None = None


def first_difference(rows: Sequence[Recorded], run: Run) -> Difference | None:
    """The first row of a journal that is not what the bench gives; rows that it lacks at its end are not asked."""
    for number, row in enumerate(rows):
        if number >= len(run.journal):
            return Difference(number, row, None)
        entry, due = run.journal[number], run.schedule.rows[number]
        if (row.kind, row.word) != entry or row.thread not in (None, due.thread) or row.order not in (None, due.order):
            return Difference(number, row, entry)
    return None


def register(subparsers: _SubParsersAction[ArgumentParser]) -> None:
    """Adds the command ``hold``."""
    hold = subparsers.add_parser(
        "hold",
        help="compare a server's record of its steps with the bench",
        usage="bench hold [options] RECORD\n       bench hold [options] SCHEDULE JOURNAL",
        description="Is this what the bench does? RECORD has a row for each step that a server's lock made, however many there are: thread, order,\n"
        "kind, word and, if it was recorded, the word's value after the step. JOURNAL has the kind and the word of each row of a\n"
        "schedule. If it is not, the first row that differs is shown: what the record says and what the bench says, the rows of that\n"
        "thread and of that word before it, the row that last wrote the word it went by, and the lock before and after it. A record\n"
        "that ends too early differs too: one that leaves a thread in the lock, one that is shorter than its schedule, an empty one.\n"
        "docs/RECORDING.md says what a server records.\n"
        "\n"
        "RECORD is a record file (./bench record); or this in hexadecimal; or CSV, whose first line names the columns thread,\n"
        "order, kind, word and, if there is one, value; or JSON, a list of such rows. JOURNAL is the journal's bytes, all kinds\n"
        "and then all words; or these in hexadecimal; or CSV or JSON with kind and word, and with row, thread, order and value\n"
        "where they are recorded. Kinds, words and orders are numbers or names.",
        epilog="exit status:\n"
        "  0  the same\n"
        "  4  different\n"
        "\n"
        "example:\n"
        "  ./bench record --dispatch examples/writer-and-reader.wants -o both.record &&\n"
        "    ./bench hold both.record\n"
        "  ./bench journal --csv examples/two-locks.schedule | ./bench hold examples/two-locks.schedule -\n"
        "  ./bench hold examples/worked-example.schedule examples/read-again.csv | head -3\n"
        "  ./bench hold --nodes 2 --fan 1 --threads 1 examples/read-again.csv | head -3",
    )
    hold.add_argument("file", metavar="RECORD", help="the record, or the schedule of a JOURNAL; - is standard input")
    hold.add_argument("journal", metavar="JOURNAL", nargs="?", help="the journal, where the first file is its schedule; - is standard input")
    hold.add_argument("--prefix", action="store_true", help="allow a record that ends early: it is compared as far as it goes")
    hold.add_argument("--sheet", metavar="FILE", help="compare the server's own sheet after its last step too, of one lock or of both")
    hold.add_argument("--as", dest="form", choices=FORMS, help="the record's form, if neither its name's ending nor its bytes show it")
    add_sizes(hold.add_argument_group("the sizes of a RECORD in CSV or JSON that does not have them"))
    inputs.add_as_text(hold, "SCHEDULE")
    inputs.add_till(hold)
    inputs.add_dispatch(hold, "SCHEDULE")
    hold.add_argument("--page", metavar="PAGE", help="if it differs, write the page of the run, which opens at that row and shows what the record says")
    hold.set_defaults(run=_hold, given=None, strict=False)


def _hold(arguments: Namespace) -> int:
    lines, ended = _hold_record(arguments) if arguments.journal is None else _hold_journal(arguments)
    status = 0 if ended is not None else inputs.DIFFERENT
    if arguments.sheet is not None:
        said = ["the server's sheet is not compared: the record differs before it"] if ended is None else list(_sheets(arguments.sheet, ended))
        status = status or (inputs.DIFFERENT if said else 0)
        lines += said or ["the server's sheet is the same"]
    inputs.write_lines(lines)
    return status


# ---- A record alone, and a journal beside its schedule: what is said of it, and the sheet at its end where nothing differs.


def _hold_record(arguments: Namespace) -> tuple[list[str], Sheet | None]:
    if arguments.till is not None or arguments.dispatch or arguments.text:
        raise inputs.UsageError("--till, --dispatch and --text go with SCHEDULE JOURNAL, and no JOURNAL is given (see --help)")
    sizes = {size: value for size in ("nodes", "fan", "threads") if (value := getattr(arguments, size)) is not None}
    file = record.opened(arguments.file, arguments.form, sizes)
    held = file.held()
    if not held.sheet.locks:
        raise inputs.refused_whole("not a record", held.sheet.answer, file.name)
    if held.sheet.answer and held.sheet.taken == 0 and refusal.looks_like(bytes(file.memory[:_MOST_BYTES])) == "schedule":
        raise inputs.UsageError("this looks like a schedule: give its journal too (see --help)", file.name)
    if held.sheet.answer:
        return _first_difference_of(file, held, arguments.page), None
    early = list(_early(file, held.sheet))
    if early and not arguments.prefix:
        return [*early, f"different: the record ends early{same_before(file.rows)} (--prefix allows that)"], None
    return [f"the same{' as far as it goes' if early else ''}: {rows_text(file.rows)}", *(f"note: {said}" for said in early)], held.sheet


def _first_difference_of(file: RecordFile, held: Held, to_page: str | None) -> list[str]:
    at = held.sheet.taken
    found = Difference(at, file.row(at), held.entry, held.value)
    due, guess = file.schedule_row(at), _guess(file, found)
    if at >= _MOST_ROWS:
        no_page = [] if to_page is None else [f"no page: it would show the first {_MOST_ROWS} rows, and this one is later", ""]
        return [*_far(found, due, file, held.sheet, guess), *no_page, _verdict(found)]
    ran = run(file.schedule(at + 1))
    return [*_near(found, due, file, ran, guess), *_paged(to_page, file.name, found, ran), _verdict(found)]


def _early(file: RecordFile, sheet: Sheet) -> Iterator[str]:
    """What says that a record, all of whose rows are right, ends before the server came to rest."""
    if file.cut:
        yield _cut_text(file)
    if file.rows == 0:
        yield "the record has no rows"
    left = [
        f"thread {number} {line.standing}{at}"
        for lock, at in zip(sheet.locks, ("", " at the second lock"))
        for number, line in enumerate(lock.threads)
        if line.standing != "idle"
    ]
    if left:
        more = f" and {len(left) - _BEFORE} more" if len(left) > _BEFORE else ""
        yield f"the record ends at row {file.rows}: {', '.join(left[:_BEFORE])}{more}"


def _cut_text(file: RecordFile) -> str:
    return f"the record has {len(file.memory)} bytes: {rows_text(file.rows)}, and {file.cut} of the {record.ROW} bytes of another"


def _hold_journal(arguments: Namespace) -> tuple[list[str], Sheet | None]:
    if arguments.file == arguments.journal == inputs.STANDARD:
        raise inputs.UsageError("the schedule and the record cannot both be standard input")
    ran = inputs.taken_run(arguments, "no journal to compare with")
    read, found = journal_of(arguments.journal, arguments.form, ran)
    notes = [f"note: {note}" for note in read.notes]
    held, taken = len(read.rows), len(ran.journal)
    if found is not None and found.row == 0 and read.short:
        # Kinds are taken for words, or words for kinds: no row is to be blamed for that.
        return [read.notes[0].partition(": ")[0], "different: the record is cut off"], None
    if found is not None:
        due = ran.schedule.rows[found.row] if found.row < len(ran.schedule.rows) else None
        file = RecordFile(bytearray(_composed(ran, ran.journal)), arguments.file)
        shown = _near(found, due, file, ran, _shifted(read.rows, ran, found.row))
        return [*notes, *shown, *_paged(arguments.page, inputs.input_name(arguments), found, ran), _verdict(found)], None
    if held < taken and not arguments.prefix:
        following = ran.schedule.rows[held]
        is_next = f"thread {following.thread}, {orders.words(following.order)} is next, by the bench {_entry_text(ran.journal[held])}"
        said = f"the record ends at row {held} of {taken}: {is_next}"
        return [*notes, said, f"different: the record ends early{same_before(held)} (--prefix allows that)"], None
    if held < taken:
        return [*notes, f"the same as far as it goes: {rows_text(held)} of {taken}"], run(ran.schedule.first(held), ran.till).sheet
    refused = f"; row {taken} is refused with {ran.sheet.answer}, and the record ends before it" if ran.sheet.answer else ""
    return [*notes, f"the same: {rows_text(held)}{refused}"], ran.sheet


def journal_of(given: str, form: str | None, ran: Run) -> tuple[Record, Difference | None]:
    """The journal, and where it differs. Of two readings of a journal that is too short it is the one that is right for longer."""
    name = "<standard input>" if given == inputs.STANDARD else given
    if form is None and name.endswith(".record"):
        return _journal_in(record.opened(given, None, {}), ran)
    data = inputs.read(given, _MOST_BYTES + 1)
    if len(data) > _MOST_BYTES:
        raise BenchError(f"the journal is longer than {_MOST_BYTES:,} bytes", name)
    form = form or recorded.form_of(name, data)
    readings = [(read, _difference(read.rows, ran, name)) for read in recorded.read(data, form, len(ran.schedule.rows), name)]
    return max(readings, key=lambda reading: len(reading[0].rows) if reading[1] is None else reading[1].row)


def _journal_in(file: RecordFile, ran: Run) -> tuple[Record, Difference | None]:
    """The same of a record file, whose sizes, threads, orders and values are held to the schedule too."""
    if file.schedule(0) != ran.schedule.first(0):
        raise BenchError("the record has other sizes than the schedule", file.name)
    rows = tuple(map(file.row, range(min(file.rows, _MOST_ROWS + 1))))
    return Record(rows, (_cut_text(file),) if file.cut else ()), _difference(rows, ran, file.name)


def _difference(rows: Sequence[Recorded], ran: Run, name: str) -> Difference | None:
    """The first row that differs, by its value too, where values are recorded."""
    found = first_difference(rows, ran)
    if all(row.value is None for row in rows):
        return found
    if ran.till is not None:
        raise BenchError("values cannot be compared where there is a till", name)
    held = Held.parse(load().record_sheet(_composed(ran, rows if found is None else rows[: found.row])))
    at = held.sheet.taken
    return Difference(at, rows[at], held.entry, held.value) if held.sheet.answer else found


def _composed(ran: Run, entries: Sequence[Entry | Recorded]) -> bytes:
    """The record of the first rows of a schedule with these entries."""
    rows = (Recorded(each.kind, each.word, row.thread, row.order, getattr(each, "value", None)) for row, each in zip(ran.schedule.rows, entries))
    return bytes((ran.schedule.nodes, ran.schedule.fan, ran.schedule.threads)) + b"".join(map(record.packed, rows))


# ---- What is shown of a difference; the last line says it once more, whole.


def _near(found: Difference, due: Row | None, file: RecordFile, ran: Run, guess: str | None) -> Iterator[str]:
    """Of a row that a schedule can lead to: the rows before it as the library runs them, and the lock before and after it. ``file`` has these rows."""
    row, rows = found.row, ran.schedule.rows
    sheets = list(states(ran.schedule.first(min(row + 1, ran.sheet.taken)), ran.till))
    told = list(rows_told(ran, sheets))
    if found.entry is not None:
        says = f"{_entry_text(found.entry)}: {told[row][0]}"
    elif row == ran.sheet.taken and ran.sheet.answer:
        says = f"the row is {refusal_text(ran)}"
    else:
        says = f"there is no such row: {rows_text(ran.sheet.taken)} are taken"
    yield from _head(found, due, says, file, guess)
    words = _words(found) & {entry.word for entry in ran.journal}
    shown = _rows_before(found, due, words, file)
    if found.entry is not None:
        shown.append(row)
    if shown:
        table = Table(ran.schedule)
        yield f"by the bench, {_of(due, words)} up to it:"
        yield table.header()
        yield from (table.row(i, rows[i], *told[i]) for i in shown)
        yield ""
    before = sheets[min(row, ran.sheet.taken)]
    yield from _around(found, due, before, None if found.entry is None else sheets[-1])


def _far(found: Difference, due: Row, file: RecordFile, sheet: Sheet, guess: str | None) -> Iterator[str]:
    """Of a later row: what the library gives for it, the record's own rows before it, and the lock before it."""
    if found.entry is not None:
        says = f"{_entry_text(found.entry)}, {record.value_text(found.entry.word, found.value)}"
    else:
        says = f"the row is {refused_text(sheet, due, None)}"
    yield from _head(found, due, says, file, guess)
    words = _words(found)
    shown = _rows_before(found, due, words, file)
    if shown:
        yield f"in the record, {_of(due, words)} up to it:"
        yield from (_row_text(i, file.row(i), len(str(found.row))) for i in shown)
        yield ""
    yield from _around(found, due, sheet, None)


def _head(found: Difference, due: Row | None, says: str, file: RecordFile, guess: str | None) -> Iterator[str]:
    yield f"row {found.row} differs" + (f": thread {due.thread}, {orders.words(due.order)}" if due is not None else "")
    yield f"  the record says  {_recorded_text(found, due)}"
    yield f"  the bench says   {says}"
    wrote = _last_write(found, due, file)
    if wrote is not None:
        by = file.row(wrote)
        yield f"  it went by {word_text(by.word)}, which row {wrote} wrote last: thread {by.thread}, {by.kind} {kind_text(by.kind)}"
    if guess is not None:
        yield f"  a guess: {guess}"
    yield ""


def _verdict(found: Difference) -> str:
    return f"different at row {found.row}{same_before(found.row)}"


def _words(found: Difference) -> set[int]:
    """The words of the differing row that rows before it may be on."""
    words = {found.recorded.word, *((found.entry.word,) if found.entry else ())}
    return {word for word in words if word < 2 * journal.SECOND_WORD and word % journal.SECOND_WORD <= journal.QUEUE}


def _rows_before(found: Difference, due: Row | None, words: set[int], file: RecordFile) -> list[int]:
    """The latest rows of the thread and on the words, and the one that wrote the word that the differing row went by."""
    latest = [islice(file.before(found.row, record.WORD, word), _BEFORE) for word in words]
    if due is not None:
        latest.append(islice(file.before(found.row, record.THREAD, due.thread), _BEFORE))
    shown = {*sorted({row for rows in latest for row in rows})[-_BEFORE:]}
    wrote = _last_write(found, due, file)
    return sorted(shown if wrote is None else shown | {wrote})


def _last_write(found: Difference, due: Row | None, file: RecordFile) -> int | None:
    """The row that last wrote the word whose value the differing row went by: its own word, where record and bench have the same, else the one that its thread
    looked at last, in the same call."""
    if due is None:
        return None
    at, word = found.row, found.recorded.word
    if found.entry == (found.recorded.kind, word) and not record.has_value(word):
        return None
    if found.entry is None or found.entry.word != word or not record.has_value(word):
        for at in file.before(found.row, record.THREAD, due.thread):
            looked = file.row(at)
            word = looked.word
            if record.has_value(word):
                break
            if looked.order != orders.GO_ON and due.order == orders.GO_ON:
                return None
        else:
            return None
    return next((row for row in file.before(at, record.WORD, word) if file.row(row).kind in (journal.SWAPPED, journal.STORED)), None)


def _of(due: Row | None, words: set[int]) -> str:
    said = [f"the rows of thread {due.thread}"] if due is not None else []
    return " and ".join([*said, *([f"those on {', '.join(word_text(word) for word in sorted(words))}"] if words else [])])


def _entry_text(entry: Entry | Recorded) -> str:
    return f"{entry.kind} {kind_text(entry.kind)}, on {entry.word} {word_text(entry.word)}"


def _row_text(number: int, row: Recorded, width: int) -> str:
    value = "" if row.value is None else f", {record.value_text(row.word, row.value)}"
    return f"  row {number:>{width}}  thread {row.thread:>2}  {orders.words(row.order or 0):<10}  {_entry_text(row)}{value}"


def _recorded_text(found: Difference, due: Row | None) -> str:
    said = found.recorded
    text = _entry_text(said)
    if due is not None and said.thread not in (None, due.thread):
        text += f", by thread {said.thread}"
    if due is not None and said.order not in (None, due.order):
        text += f", order {said.order} ({orders.words(said.order or 0)})"
    if said.value is not None and found.entry is not None:
        text += f", {record.value_text(said.word, said.value)}"
        if (said.kind, said.word) == found.entry and found.value is None:
            text += ", and such a row has none"
    return text


def _around(found: Difference, due: Row | None, before: Sheet, after: Sheet | None) -> Iterator[str]:
    """The lock before a row and, by the bench, after it: the sheet's lines, without idle threads and nodes at 0 that stay so."""
    which = 0 if found.entry is None else found.entry.lock
    pairs = list(_lines(before, after or before, which))
    kept = [(old, new) for old, new in pairs if old != new or not _is_at_rest(old) or due is not None and old.startswith(f"thread {due.thread} ")]
    name = "the second lock" if which else "the lock"
    head = f"{name} before row {found.row}" if found.entry is not None else f"{name} after {rows_text(before.taken)}"
    width = max(len(head), *(len(old) for old, _ in kept))
    yield f"{head:<{width}}  by the bench after it" if after is not None else head
    yield from (f"{old:<{width}}  {new}" if old != new else old for old, new in kept)
    if len(kept) < len(pairs):
        yield "(threads not shown are idle without failures, nodes not shown are at 0)"
    yield ""


def _is_at_rest(line: str) -> bool:
    return line.endswith(" idle - 0") or line.startswith("node ") and line.endswith(" 0")


def _lines(before: Sheet, after: Sheet, which: int) -> Iterator[tuple[str, str]]:
    old: LockState = before.locks[which]
    yield from zip(old.lines(), after.locks[which].lines())
    yield from ((f"room {room} {was}", f"room {room} {now}") for room, (was, now) in enumerate(zip(before.rooms, after.rooms)))


def _paged(to_page: str | None, name: str, found: Difference, ran: Run) -> list[str]:
    """Writes the page of the run, if one is wanted, and says so."""
    if to_page is None:
        return []
    shown = list(states(ran.schedule, ran.till))
    opened = min(found.row, len(shown) - 1)
    written = page.write_page(ran, shown, f"{inputs.shown_name(name)}: row {found.row} differs", opened, _recorded_text(found, None))
    inputs.write(to_page, written.encode("utf-8"))
    return [f"page: {to_page}#row={found.row}", ""]


# ---- A guess at what became of a row. Of a record alone the library is asked whether it makes the rows right that follow.


def _guess(file: RecordFile, found: Difference) -> str | None:
    """What makes the next hundred rows right, if something does: a row left out, two exchanged, one put in."""
    for said, rows in _changed(file, found, time.monotonic() + _PATIENCE):
        count = len(rows) // record.ROW
        if count >= _FEWEST and file.instead(found.row, rows).sheet.answer == 0:
            return f"{said}; then the next {rows_text(count)} are right"
    return None


def _changed(file: RecordFile, found: Difference, deadline: float) -> Iterator[tuple[str, bytes]]:
    """The rows from the differing one on, as they would be, and what became of them; none after the deadline."""
    row, end = found.row, found.row + _RIGHT
    one, two = file.bytes_of(row, row + 1), file.bytes_of(row + 1, row + 2)
    yield f"row {row} is one too many", file.bytes_of(row + 1, end + 1)
    yield f"rows {row} and {row + 1} are in each other's place", two + one + file.bytes_of(row + 2, end)
    said = found.recorded
    second = orders.SECOND * (said.word // journal.SECOND_WORD)
    beginnings = (*range(orders.WRITE_LOCK, orders.DOWNGRADE + 1), *range(orders.READ_LOCK, orders.READ_LOCK + file.memory[0]))
    calls = [second + order for order in beginnings]
    own = [Row(said.thread or 0, order) for order in (orders.GO_ON, *(calls if found.entry is None else ()))]
    others = dict.fromkeys(file.bytes_of(row, end)[:: record.ROW])
    for missing in (*own, *(Row(thread, orders.GO_ON) for thread in others if thread != said.thread)):
        if time.monotonic() > deadline:
            return
        # No kind is 255, so the library says which it is.
        entry = file.instead(row, record.packed(Recorded(0xFF, 0xFF, missing.thread, missing.order))).entry
        if entry is not None:
            put = record.packed(Recorded(entry.kind, entry.word, missing.thread, missing.order))
            told = f"before row {row} one is missing: thread {missing.thread}, {orders.words(missing.order)}, {_entry_text(entry)}"
            yield told, put + file.bytes_of(row, min(end, file.rows) - 1)


def _shifted(rows: Sequence[Recorded], ran: Run, row: int) -> str | None:
    """The same of a journal, whose rows are to be those of its schedule."""
    due = list(ran.journal)

    def right(said: Sequence[Recorded], of: Sequence[Entry]) -> int:
        """How many rows are right, where they all are."""
        count = min(len(said), len(of), _RIGHT)
        return count if count >= _FEWEST and all((one.kind, one.word) == entry for one, entry in zip(said[:count], of)) else 0

    exchanged = [*rows[row + 1 : row + 2], *rows[row : row + 1], *rows[row + 2 :]]
    for said, count in (
        (f"row {row} is one too many", right(rows[row + 1 :], due[row:])),
        (f"row {row} is missing", right(rows[row:], due[row + 1 :])),
        (f"rows {row} and {row + 1} are in each other's place", right(exchanged, due[row:])),
    ):
        if count:
            return f"{said}; then the next {rows_text(count)} are right"
    return None


# ---- The server's own sheet.


def _sheets(name: str, bench: Sheet) -> Iterator[str]:
    """What differs between the server's last sheet, of one lock or of both, and the bench's."""
    try:
        server = Sheet.parse(inputs.read(name, _MOST_BYTES))
    except inputs.UsageError:
        raise
    except BenchError as error:
        raise BenchError(f"not a sheet: {error}", name) from None
    if not server.locks or [len(lock.threads) for lock in server.locks] != [len(lock.threads) for lock in bench.locks[: len(server.locks)]]:
        raise BenchError("not the sheet of this record: it has other locks or threads", name)
    fields: list[tuple[str, object, object]] = [("answer", server.answer, bench.answer), ("rows taken", server.taken, bench.taken)]
    for which, (was, now) in enumerate(zip(server.locks, bench.locks)):
        fields += ((f"{'second lock, ' if which else ''}{field}", old, new) for field, old, new in differences(was, now))
    fields += ((f"room {room}", old, new) for room, (old, new) in enumerate(zip(server.rooms, bench.rooms)))
    differing = [(field, old, new) for field, old, new in fields if old != new]
    if differing:
        yield f"the server's sheet differs: {name}"
    yield from (f"  {field}: the server has {old}, the bench {new}" for field, old, new in differing)
