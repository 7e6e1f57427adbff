"""Schedules, files of the ticket lock and tills as text: read, and printed. ``GUIDE`` tells how texts are written."""

from __future__ import annotations

from collections.abc import Callable, Iterable, Sequence
from dataclasses import dataclass, field
from itertools import groupby
from typing import Final, NoReturn

from . import condition, orders, ticket
from .condition import Sizes
from .errors import NotationError
from .reader import Reader, line_and_column, quoted, unknown
from .refusal import RANGES
from .schedule import MOST_ROWS, Row, Schedule
from .script import UNTIL, Expect, Item, Refused, Until
from .script import Script as Script
from .ticket import TicketSchedule
from .till import Till, TillEntry

GUIDE: Final = """\
A schedule says whose turn it is, row by row, and with which order:

  # A reader, and a writer who waits for it.
  nodes 2                    # N; sizes come first, and those that are not named are 1
  fan 1                      # F
  threads 2                  # T
  0: read 1, go*5            # thread 0 begins a read-lock by node 1, and goes on five times
  1: write, go until asleep  # thread 1 begins a write-lock, and goes on until it sleeps
  expect thread 0 reading and queue writers = 1
  0: unlock, go*8

Orders   go               go on with the call under way
         write            begin a write-lock
         read NODE        begin a read-lock by this node; read 0 goes straight to the root
         unlock           begin an unlock
         upgrade          begin to turn a read-lock into a write-lock
         downgrade        begin to turn a write-lock into a read-lock
         book ENTRY       book this entry of the till
         write second     .. and so on: the same of the second lock; go goes on in either
         67, order 67     any order, by its number
Until    go until done    go on until the call is over; or until asleep, reading, writing, idle,
                          or a condition in brackets: go until (queue writers >= 1). The library
                          is asked how many rows that takes
Expect   expect thread 1 asleep and root closed
                          between the rows: what holds at this place. Where it does not, ./bench
                          says so, with exit status 4; expect refused 7 is for a row that is
                          refused (./bench find --help says how conditions are written)
Repeat   go*5             an order
         (read 1, unlock)*3   several
Several  0:64,0,0 1:65    threads on a line; this is document 01's notation, orders as numbers
Sizes    N = 2, F = 1, T = 2:    is another way to write them
Spaces   line breaks count as spaces, and a comment goes from # to the end of its line

In a file of calls (for the plain engine) or of wanted calls (for the dispatcher) each row is a
whole call.

A file of the ticket lock begins with the word tickets, a till with the word till:

  tickets                               till
  threads 2                             rooms 2
  start 65535                           0: room 1, +20     # entry 0 tops up the balance of room 1
  0: take, compare                      1: room 1, -3      # entry 1 charges it for a song
  1: take, compare
  0: advance

Whatever a file can hold can be written, also what the bench refuses; what no file can hold is an
error.
"""

#: What a text can stand for.
Document = Schedule | TicketSchedule | Till

#: An order or ``go until``, and where it stands.
_Placed = tuple[int | Until, int]

@dataclass(frozen=True)
class _Vocabulary:
    """The words that orders have in a kind of file: those that stand alone, and those with a number behind them."""

    simple: dict[str, int]
    numbered: dict[str, int] = field(default_factory=dict)

    def all(self) -> list[str]:
        return [*self.simple, *self.numbered, "order"]


_LOCKS: Final = _Vocabulary(orders.SIMPLE, orders.NUMBERED)
_TICKETS: Final = _Vocabulary(ticket.ORDERS)

# The sizes of each kind of text, with the most that each can be, and document 01's letters for them. Those that are not named are 1, the start number 0.
_SCHEDULE_SIZES: Final = {"nodes": 0xFF, "fan": 0xFF, "threads": 0xFF}
_TICKET_SIZES: Final = {"threads": 0xFF, "start": 0xFFFF}
_TILL_SIZES: Final = {"rooms": 0xFF}
_LETTERS: Final = {"N": "nodes", "F": "fan", "T": "threads", "R": "rooms"}
# One for each row that the bench takes: the library is asked for each.
_MOST_EXPECTED: Final = RANGES["rows"][1]
_HEADINGS: Final = {"schedule": "a schedule", "tickets": "a file of the ticket lock", "till": "a till"}


class _Reader(Reader):
    """Reads the parts of a text."""

    def heading(self, due: str) -> None:
        """Takes the word for the kind of text; one of another kind is an error."""
        if self.next.text in _HEADINGS:
            if self.next.text != due:
                self.fail(f"this is the text of {_HEADINGS[self.next.text]}; expected that of {_HEADINGS[due]}")
            self.at += 1
        elif due != "schedule":
            self.fail(f"expected {quoted(due)}, with which the text of {_HEADINGS[due]} begins, found {self.found}")

    def sizes(self, sizes: dict[str, int], others: Sequence[str]) -> dict[str, int]:
        """Takes the sizes that are named, each at most once; ``others`` are the words that may come later."""
        named: dict[str, int] = {}
        while self.next.kind == "word" and self.next.text not in others:
            token = self.take()
            name = _LETTERS.get(token.text, token.text)
            if name not in sizes:
                self.fail(unknown(token.text, sizes, "size"), token.start)
            if name in named:
                self.fail(f"{quoted(name)} is given twice", token.start)
            self.takes("=")
            named[name] = self.number(name, sizes[name], taken=RANGES.get(name))
            # Document 01 parts its sizes with commas, and has a colon behind them.
            if not self.takes(","):
                self.takes(":")
        return {name: named.get(name, 0 if name == "start" else 1) for name in sizes}

    def items(self, vocabulary: _Vocabulary, sizes: dict[str, int], named: Sizes | None = None) -> list[Item]:
        """Takes the rows and what stands between them, to the end of the text; ``named`` are the sizes of a schedule, which conditions may name."""
        items: list[Item] = []
        expected = 0
        while self.next.kind != "end":
            if self.next.text == "expect" and named is not None:
                expected += 1
                if expected > _MOST_EXPECTED:
                    self.fail(f"too many `expect`: {_MOST_EXPECTED} at most")
                items.append(self.expectation(named))
                continue
            if not self.is_label():
                self._no_label(bool(items), vocabulary, sizes)
            thread = self.number("thread", 0xFF)
            self.at += 1
            while True:
                items += [Item(what, place, thread) for what, place in self.orders(vocabulary, MOST_ROWS - len(items) + expected, named)]
                if not self.takes(","):
                    break
        return items

    def rows(self, vocabulary: _Vocabulary, sizes: dict[str, int]) -> tuple[Row, ...]:
        """Takes the rows, to the end of the text."""
        return tuple(Row(item.thread, item.what) for item in self.items(vocabulary, sizes) if isinstance(item.what, int))

    def expectation(self, named: Sizes) -> Item:
        """Takes ``expect`` and its condition, or the number of a refusal."""
        place = self.take().start
        if self.takes("refused"):
            return Item(Refused(self.number("refusal", 10, 5) if self.is_number() else None), place)
        begin = self.next.start
        met = condition.read(self, named)
        last = self.tokens[self.at - 1]
        return Item(Expect(met, self.text[begin : last.start + len(last.text)]), place)

    def orders(self, vocabulary: _Vocabulary, room: int, named: Sizes | None) -> list[_Placed]:
        """Takes an order, or several in brackets, with a repetition; ``room`` is how many may come."""
        if not self.takes("("):
            return self.repeated([self.order(vocabulary, named)], room)
        group: list[_Placed] = []
        while True:
            group += self.repeated([self.order(vocabulary, named)], room - len(group))
            if not self.takes(","):
                break
        if not self.takes(")"):
            self.fail(f"expected a comma or ')', found {self.found}")
        return self.repeated(group, room)

    def repeated(self, orders: list[_Placed], room: int) -> list[_Placed]:
        """Takes a repetition, if one comes."""
        place = self.next.start
        times = self.number("repetition", MOST_ROWS, 1) if self.takes("*") else 1
        if len(orders) * times > room:
            self.fail(f"too many rows: a file holds {MOST_ROWS} at most", place)
        return orders * times

    def _no_label(self, is_behind_rows: bool, vocabulary: _Vocabulary, sizes: dict[str, int]) -> NoReturn:
        token = self.next
        if token.kind == "word" and _LETTERS.get(token.text, token.text) in sizes:
            self.fail(f"the size {quoted(token.text)} must come before the rows")
        if token.text == "expect":
            self.fail("'expect' is for schedules only")
        if is_behind_rows and (token.kind == "number" or token.text in vocabulary.all()):
            self.fail(f"expected a comma, or a thread with its colon, before {self.found}")
        self.fail(f"expected a thread with its colon, such as '0:', found {self.found}")

    def order(self, vocabulary: _Vocabulary, named: Sizes | None) -> _Placed:
        """Takes an order, in words or as a number, and its place."""
        place = self.next.start
        if not self.takes("go", "until"):
            return self.order_number(vocabulary), place
        if named is None:
            self.fail("'go until' is for schedules only", place)
        return self.until(named), place

    def until(self, named: Sizes) -> Until:
        """Takes what a thread goes on until: a standing, ``done``, or a condition in brackets."""
        token = self.next
        if token.kind == "word" and token.text not in UNTIL:
            self.fail(unknown(token.text, UNTIL, "word") + f" ('go until' takes {', '.join(UNTIL)} or a condition in brackets)")
        if token.kind != "word" and token.text != "(":
            self.fail(f"expected {', '.join(UNTIL)} or a condition in brackets, found {self.found}")
        self.at += 1
        if token.kind == "word":
            return Until(token.text)
        met = condition.read(self, named)
        end = self.next.start
        if not self.takes(")"):
            self.fail(f"expected ')', found {self.found}")
        return Until(self.text[token.start : end + 1], met)

    def order_number(self, vocabulary: _Vocabulary) -> int:
        """Takes an order, in words or as a number."""
        if self.is_number():
            return self.number("order", 0xFF)
        if self.next.kind != "word":
            self.fail(f"expected an order, found {self.found}")
        token = self.take()
        if token.text == "order":
            return self.number("order", 0xFF)
        if token.text in vocabulary.simple:
            order = vocabulary.simple[token.text]
        elif token.text in vocabulary.numbered:
            of = orders.NUMBERED_OF[token.text]
            if not self.is_number():
                self.fail(f"{quoted(token.text)} needs the number of its {of}, such as '{token.text} 0'", token.start)
            order = vocabulary.numbered[token.text] + self.number(of, orders.NAMED - 1)
        else:
            self.fail(unknown(token.text, vocabulary.all(), "order"), token.start)
        if self.next.text == "second":
            if not (vocabulary.numbered and orders.has_second(order)):
                self.fail(f"the second lock has no order {quoted(token.text)}")
            self.at += 1
            order += orders.SECOND
        return order

    def entries(self) -> tuple[TillEntry, ...]:
        """Takes a till's entries, to the end of the text."""
        entries: list[TillEntry] = []
        while self.next.kind != "end":
            if not self.is_label():
                self.fail(f"expected the number of an entry with a colon, such as '{len(entries)}:', found {self.found}")
            place = self.next.start
            if self.number("entry", 0xFE) != len(entries):
                self.fail(f"expected entry {len(entries)}: entries are numbered from 0, in order", place)
            self.at += 1
            if not self.takes("room"):
                self.fail(f"expected 'room', found {self.found}")
            room = self.number("room", 0xFF)
            self.takes(",")
            minus = self.takes("-")
            if not minus:
                self.takes("+")
            amount = self.number("amount", 0x8000 if minus else 0x7FFF)
            entries.append(TillEntry(room, -amount if minus else amount))
        return tuple(entries)


def _script(reader: _Reader) -> Script:
    reader.heading("schedule")
    sizes = reader.sizes(_SCHEDULE_SIZES, [*_LOCKS.all(), "expect"])
    nodes, fan, threads = sizes["nodes"], sizes["fan"], sizes["threads"]
    return Script(nodes, fan, threads, tuple(reader.items(_LOCKS, _SCHEDULE_SIZES, Sizes(threads, nodes))), reader.text, reader.name)


def _tickets(reader: _Reader) -> TicketSchedule:
    reader.heading("tickets")
    sizes = reader.sizes(_TICKET_SIZES, _TICKETS.all())
    return TicketSchedule(sizes["threads"], sizes["start"], reader.rows(_TICKETS, _TICKET_SIZES))


def _till(reader: _Reader) -> Till:
    reader.heading("till")
    sizes = reader.sizes(_TILL_SIZES, ["room"])
    return Till(sizes["rooms"], reader.entries())


_KINDS: Final[dict[str, Callable[[_Reader], TicketSchedule | Till]]] = {"tickets": _tickets, "till": _till}


def parse(text: str, name: str = "<text>") -> Schedule:
    """The schedule that a text stands for; ``name`` is the text's file, for errors. What it expects is not asked."""
    return parse_script(text, name).read().schedule


def parse_script(text: str, name: str = "<text>") -> Script:
    """A schedule's text as it is written, with what it expects: ``Script.read`` makes the schedule of it."""
    return _script(_Reader(text, name))


def parse_tickets(text: str, name: str = "<text>") -> TicketSchedule:
    """The file of the ticket lock that a text stands for."""
    return _tickets(_Reader(text, name))


def parse_till(text: str, name: str = "<text>") -> Till:
    """The till that a text stands for."""
    return _till(_Reader(text, name))


def parse_any_script(text: str, name: str = "<text>") -> Script | TicketSchedule | Till:
    """What a text stands for, by the word that it begins with; without such a word it is a schedule's text."""
    reader = _Reader(text, name)
    return _KINDS.get(reader.next.text, _script)(reader)


def parse_any(text: str, name: str = "<text>") -> Document:
    """What a text stands for, of whatever kind; what a schedule's text expects is not asked."""
    found = parse_any_script(text, name)
    return found.read().schedule if isinstance(found, Script) else found


def decoded(data: bytes, name: str) -> str:
    """The text in a file's bytes, which are UTF-8."""
    try:
        return data.decode("utf-8")
    except UnicodeDecodeError as error:
        before = data[: error.start].decode("utf-8")
        raise NotationError(f"byte {data[error.start]:02x} is not UTF-8", name, *line_and_column(before, len(before))) from None


def print_schedule(schedule: Schedule, numbers: bool = False) -> str:
    """The text of a schedule, a line for each turn of a thread; ``numbers`` gives document 01's notation."""
    if numbers:
        sizes = f"N = {schedule.nodes}, F = {schedule.fan}, T = {schedule.threads}:\n"
        turns = (f"{thread}:{line}" for thread, rows in _turns(schedule.rows) for line in _filled((str(row.order) for row in rows), ","))
        return sizes + "".join(f"{line}\n" for line in _filled(turns, " "))
    sizes = f"nodes {schedule.nodes}\nfan {schedule.fan}\nthreads {schedule.threads}\n"
    return sizes + _rows_text(schedule.rows, orders.words)


def print_tickets(schedule: TicketSchedule) -> str:
    """The text of a file of the ticket lock."""
    return f"tickets\nthreads {schedule.threads}\nstart {schedule.start}\n" + _rows_text(schedule.rows, ticket.words)


def print_till(till: Till) -> str:
    """The text of a till."""
    entries = (f"{number}: room {entry.room}, {entry.amount:+}\n" for number, entry in enumerate(till.entries))
    return f"till\nrooms {till.rooms}\n" + "".join(entries)


def print_any(document: Document) -> str:
    """The text of whatever a text can stand for."""
    match document:
        case Schedule():
            return print_schedule(document)
        case TicketSchedule():
            return print_tickets(document)
        case Till():
            return print_till(document)


# How long the lines of a printed text get, the thread's number aside.
_WIDTH: Final = 100


def _turns(rows: Iterable[Row]) -> Iterable[tuple[int, Iterable[Row]]]:
    """Rows that one thread makes in a row."""
    return groupby(rows, key=lambda row: row.thread)


def _rows_text(rows: Iterable[Row], words: Callable[[int], str]) -> str:
    lines: list[str] = []
    for thread, turn in _turns(rows):
        repeated = ((words(order), len(list(same))) for order, same in groupby(turn, key=lambda row: row.order))
        texts = (f"{word}*{times}" if times > 1 else word for word, times in repeated)
        # A turn that is too long for a line goes on in the next, which names the thread again.
        lines += (f"{thread}: {line}\n" for line in _filled(texts, ", "))
    return "".join(lines)


def _filled(texts: Iterable[str], between: str) -> list[str]:
    """The texts, joined into lines that are as long as may be."""
    lines: list[str] = []
    for text in texts:
        if lines and len(lines[-1]) + len(between) + len(text) <= _WIDTH:
            lines[-1] += between + text
        else:
            lines.append(text)
    return lines
