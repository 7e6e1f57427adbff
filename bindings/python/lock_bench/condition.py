"""Conditions: words over what sheets and journals show, with ``and``, ``or``, ``not`` and comparisons. ``GUIDE`` tells how they are written.

A condition is read off a history: the library's sheets of its rows, and its journal. Everything that can be named is a number; a fact such as ``root open`` is 1
or 0, and a number that stands alone means that it is at least 1. ``distance`` says how far a history is from a condition, for a search that comes nearer.
"""

from __future__ import annotations

from collections.abc import Callable, Iterable, Iterator
from dataclasses import dataclass, replace
from typing import Final, NamedTuple

from . import journal, orders
from .errors import BenchError
from .history import History
from .reader import Reader, Token, count_text, quoted, unknown
from .schedule import call_of
from .sheet import STANDINGS, LockState
from .stuck import is_stuck_after

GUIDE: Final = """\
A condition says something of the state after a schedule's last row, or of what its rows did:

  thread 2 asleep and root open
  failures of 1 >= 3 or queue writers >= 2
  not (root closed) and threads reading = 2

State    thread 2 asleep           or idle, calling, reading, writing, holding (reads or writes)
         thread 2 reading by 1     its ticket is node 1's
         any thread asleep         of one at least; all threads asleep, no thread asleep
         threads asleep >= 2       how many
         root open, root closed    also root = 2, root direct = 1, root tree = 1: arrivals
         node 1 = 2                arrivals at a node
         queue groups, queue writers
         mutex free, mutex taken, mutex by 2
         failures of 1, failures   failed swaps of a thread, and of all
         room 1 < 5                the balance of a room, where there is a till
         stuck                     no row of any thread would change anything; a state where
                                   a thread is idle or holds is not stuck: it can begin a call
Rows     swap failed, swap done, held up, word read, woken, queue changed, upgrade denied,
         upgrade granted, late arrival (a read-lock by a node that succeeds at a closed root),
         booked, repeated, booking denied
         upgrade denied by 2       by this thread; swap failed on root, on node 1: of this word
         held up by 2 >= 3         how often, in all rows so far
         rows = 13                 the rows so far
         wait >= 40                the most rows, of all threads, from a lock's first row until
                                   it is held; one that is still waited for counts so far
Second   root open second          the same at the second lock
Compare  = != < <= > >=            a fact alone means: at least 1
Join     and, or, not, brackets; not binds first, then and
"""

#: The kinds of journal entries that conditions name.
_EVENTS: Final = {
    ("swap", "failed"): (journal.FAILED,),
    ("swap", "done"): (journal.SWAPPED,),
    ("word", "read"): (journal.READ, journal.DENIED_UPGRADE),
    ("held", "up"): (journal.HELD_UP,),
    ("queue", "changed"): (journal.CHANGED_QUEUE,),
    ("booking", "denied"): (journal.DENIED_BOOKING,),
    ("woken",): (journal.WOKE,),
    ("booked",): (journal.BOOKED,),
    ("repeated",): (journal.REPEATED,),
}
# What is told by more than an entry's kind.
_TOLD: Final = (("upgrade", "denied"), ("upgrade", "granted"), ("late", "arrival"))
# What rows do to one word of several.
_ON_WORDS: Final = ("swap failed", "swap done", "word read")
_BOOKINGS: Final = (("booked",), ("repeated",), ("booking", "denied"))
#: The standings that conditions name: those of the sheet, and either way of holding.
_STANDINGS: Final = {**{standing: frozenset((standing,)) for standing in STANDINGS}, "holding": frozenset(("reading", "writing"))}
_ALL: Final = frozenset(STANDINGS)

# The largest number that a condition can name: no count, number of rows or balance is larger.
_MOST: Final = 9_999_999
# Brackets within brackets: reading them takes a few calls each, and Python's stack has an end.
_MOST_BRACKETS: Final = 50
_MOST_TOKENS: Final = 4096


@dataclass(frozen=True, slots=True)
class Quantity:
    """A number that a history shows: what it is of, and how its text reads."""

    what: str
    text: str
    lock: int = 0
    thread: int | None = None
    #: A node, a room, a word, or a number itself.
    number: int | None = None
    #: Standings, or kinds of entries.
    standings: frozenset[str] = frozenset()
    kinds: tuple[int, ...] = ()

    def value(self, history: History) -> int:
        """The number."""
        return _VALUES[self.what](self, history)

    @property
    def is_fact(self) -> bool:
        """Whether it is 1 or 0."""
        return self.what in _FACTS


@dataclass(frozen=True, slots=True)
class Comparison:
    """Two numbers compared."""

    left: Quantity
    sign: str
    right: Quantity

    def holds(self, history: History) -> bool:
        """Whether it is so."""
        return _SIGNS[self.sign](self.left.value(history), self.right.value(history))

    def distance(self, history: History) -> float:
        """How far it is from being so, 0 where it is."""
        left, right = self.left.value(history), self.right.value(history)
        if _SIGNS[self.sign](left, right):
            return 0.0
        if self.left.is_fact:
            return _nearness(self.left, history) if self.sign in (">=", ">", "=") and right >= left else 1.0
        return float(abs(left - right) + (self.sign in ("<", ">", "!=")))

    def comparisons(self) -> Iterator[Comparison]:
        """The comparisons that it is made of."""
        yield self

    def negated(self) -> Comparison:
        """Its opposite."""
        return Comparison(self.left, _OPPOSITES[self.sign], self.right)

    def __str__(self) -> str:
        if self.is_bare:
            return self.left.text
        return f"{self.left.text} {self.sign} {self.right.text}"

    @property
    def is_bare(self) -> bool:
        """Whether it is a number that stands alone."""
        return self.sign == ">=" and self.right == ONE and self.left.what != "number"


@dataclass(frozen=True, slots=True)
class Join:
    """Conditions joined by ``and`` or by ``or``."""

    word: str
    parts: tuple[Condition, ...]

    def holds(self, history: History) -> bool:
        """Whether it is so."""
        return (all if self.word == "and" else any)(part.holds(history) for part in self.parts)

    def distance(self, history: History) -> float:
        """How far it is from being so, 0 where it is."""
        distances = [part.distance(history) for part in self.parts]
        return sum(distances) if self.word == "and" else min(distances)

    def comparisons(self) -> Iterator[Comparison]:
        """The comparisons that it is made of."""
        for part in self.parts:
            yield from part.comparisons()

    def negated(self) -> Join:
        """Its opposite."""
        return Join("or" if self.word == "and" else "and", tuple(part.negated() for part in self.parts))

    def __str__(self) -> str:
        return f" {self.word} ".join(f"({part})" if isinstance(part, Join) else str(part) for part in self.parts)


Condition = Comparison | Join

ONE: Final = Quantity("number", "1", number=1)

_SIGNS: Final[dict[str, Callable[[int, int], bool]]] = {
    "=": lambda left, right: left == right,
    "!=": lambda left, right: left != right,
    "<": lambda left, right: left < right,
    "<=": lambda left, right: left <= right,
    ">": lambda left, right: left > right,
    ">=": lambda left, right: left >= right,
}
_OPPOSITES: Final = {"=": "!=", "!=": "=", "<": ">=", ">=": "<", ">": "<=", "<=": ">"}


# ---- Reading.


@dataclass(frozen=True, slots=True)
class Sizes:
    """How many threads, nodes and rooms a condition may name; None where that is not known."""

    threads: int | None = None
    nodes: int | None = None
    rooms: int | None = None


def parse(text: str, sizes: Sizes = Sizes(), name: str = "<condition>") -> Condition:
    """The condition that a text stands for; ``name`` is for errors."""
    reader = Reader(text, name)
    condition = read(reader, sizes)
    _end(reader, "'and', 'or' or a comparison")
    return condition


def parse_quantity(text: str, sizes: Sizes = Sizes(), name: str = "<quantity>") -> Quantity:
    """The number that a text names."""
    reader = Reader(text, name)
    quantity = _quantity(reader, sizes)
    _end(reader, "the end of the text")
    return quantity


def _end(reader: Reader, due: str) -> None:
    """Fails where the text goes on."""
    if reader.next.kind != "end":
        reader.fail(f"expected {due}, found {reader.found}")


def on_a_line(text: str) -> str:
    """A condition's text without comments and line breaks, as a text of a schedule can have it."""
    return " ".join(token.text for token in iter(Reader(text, "").take, Token("end", "", len(text)))) if "\n" in text or "#" in text else text.strip()


def read(reader: Reader, sizes: Sizes) -> Condition:
    """Takes a condition from a text."""
    return _joined(reader, sizes, "or", _Within(reader.at, 0))


class _Within(NamedTuple):
    """Where a condition begins, by the number of its first token, and how many brackets are open."""

    begin: int
    depth: int

    def check(self, reader: Reader) -> None:
        """Fails where the condition is longer or deeper than any that somebody would write."""
        if self.depth > _MOST_BRACKETS:
            reader.fail(f"too many nested brackets ({_MOST_BRACKETS} at most)")
        if reader.at - self.begin > _MOST_TOKENS:
            reader.fail(f"the condition is too long ({_MOST_TOKENS:,} words, numbers and signs at most)")


def _joined(reader: Reader, sizes: Sizes, word: str, within: _Within) -> Condition:
    def part() -> Condition:
        return _joined(reader, sizes, "and", within) if word == "or" else _unit(reader, sizes, within)

    parts = [part()]
    while reader.takes(word):
        parts.append(part())
    return parts[0] if len(parts) == 1 else Join(word, tuple(parts))


def _unit(reader: Reader, sizes: Sizes, within: _Within) -> Condition:
    within.check(reader)
    is_negated = False
    while reader.takes("not"):
        is_negated = not is_negated
        within.check(reader)
    unit = _plain_unit(reader, sizes, within)
    return unit.negated() if is_negated else unit


def _plain_unit(reader: Reader, sizes: Sizes, within: _Within) -> Condition:
    if reader.takes("("):
        inner = _joined(reader, sizes, "or", _Within(within.begin, within.depth + 1))
        if not reader.takes(")"):
            reader.fail(f"expected ')', found {reader.found}")
        return inner
    left = _quantity(reader, sizes)
    sign = "=" if reader.next.text == "==" else reader.next.text
    if sign not in _SIGNS:
        return Comparison(left, ">=", ONE)
    reader.take()
    return Comparison(left, sign, _quantity(reader, sizes))


def _quantity(reader: Reader, sizes: Sizes) -> Quantity:
    """Takes what names a number."""
    begin = reader.at
    quantity = _named(reader, sizes)
    if reader.next.text == "second":
        if quantity.what in ("number", "rows", "room", "stuck", "wait") or quantity.kinds in tuple(_EVENTS[name] for name in _BOOKINGS):
            reader.fail("'second' goes only with what belongs to a lock")
        reader.take()
        quantity = replace(quantity, lock=1)
    return replace(quantity, text=" ".join(token.text for token in reader.tokens[begin : reader.at]))


def _named(reader: Reader, sizes: Sizes) -> Quantity:
    if reader.is_number() or reader.next.text == "-":
        minus = reader.takes("-")
        number = reader.number("number", _MOST)
        return Quantity("number", "", number=-number if minus else number)
    for name, kinds in _EVENTS.items():
        if reader.takes(*name):
            return _event(reader, sizes, " ".join(name), kinds)
    for name in _TOLD:
        if reader.takes(*name):
            return _event(reader, sizes, " ".join(name), ())
    token = reader.next
    if token.kind != "word":
        reader.fail(f"expected a condition, found {reader.found}")
    read_rest = _READERS.get(token.text)
    if read_rest is None:
        known = {*_READERS, *(word for name in (*_EVENTS, *_TOLD) for word in name[:1])}
        reader.fail(unknown(token.text, known, "word"))
    reader.take()
    return read_rest(reader, sizes)


def _event(reader: Reader, sizes: Sizes, name: str, kinds: tuple[int, ...]) -> Quantity:
    thread, word = None, None
    while True:
        if thread is None and reader.takes("by"):
            thread = _thread(reader, sizes)
        elif word is None and name in _ON_WORDS and reader.takes("on"):
            word = _word(reader, sizes)
        else:
            return Quantity("event" if kinds else name, name, thread=thread, number=word, kinds=kinds)


def _word(reader: Reader, sizes: Sizes) -> int:
    if reader.takes("root"):
        return journal.ROOT
    _due(reader, "node", "'root' or 'node'")
    return _number(reader, "node", sizes.nodes, orders.NAMED)


def _number(reader: Reader, name: str, below: int | None, most: int) -> int:
    """Takes a number below a size, or below the most that it can be where the size is not known."""
    return reader.number(name, (most if below is None else below) - 1)


def _thread(reader: Reader, sizes: Sizes) -> int:
    return _number(reader, "thread", sizes.threads, 64)


def _standing(reader: Reader) -> tuple[str, frozenset[str]]:
    token = reader.next
    if token.text not in _STANDINGS:
        reader.fail(f"expected a standing ({', '.join(_STANDINGS)}), found {reader.found}" if token.kind != "word" else unknown(token.text, _STANDINGS, "standing"))
    return token.text, _STANDINGS[reader.take().text]


def _read_thread(reader: Reader, sizes: Sizes) -> Quantity:
    thread = _thread(reader, sizes)
    reader.takes("is")
    standing, standings = _standing(reader)
    ticket = _number(reader, "node", sizes.nodes, orders.NAMED) if standing == "reading" and reader.takes("by") else None
    return Quantity("standing", "", thread=thread, number=ticket, standings=standings)


def _read_any(reader: Reader, sizes: Sizes) -> Quantity:
    _due(reader, "thread")
    return Quantity("any", "", standings=_standing(reader)[1])


def _read_no(reader: Reader, sizes: Sizes) -> Quantity:
    _due(reader, "thread")
    return Quantity("all", "", standings=_ALL - _standing(reader)[1])


def _read_all(reader: Reader, sizes: Sizes) -> Quantity:
    _due(reader, "threads")
    return Quantity("all", "", standings=_standing(reader)[1])


def _read_threads(reader: Reader, sizes: Sizes) -> Quantity:
    return Quantity("threads", "", standings=_standing(reader)[1])


def _part(reader: Reader, whole: str, *parts: str) -> Quantity | None:
    """Takes the word of a part, if one is next."""
    return next((Quantity(f"{whole} {word}", "") for word in parts if reader.takes(word)), None)


def _read_root(reader: Reader, sizes: Sizes) -> Quantity:
    return _part(reader, "root", "open", "closed", "direct", "tree") or Quantity("root", "")


def _read_node(reader: Reader, sizes: Sizes) -> Quantity:
    place = reader.next.start
    node = _number(reader, "node", sizes.nodes, orders.NAMED)
    if node == 0:
        reader.fail("node 0 is the root: write 'root'", place)
    return Quantity("node", "", number=node)


def _read_queue(reader: Reader, sizes: Sizes) -> Quantity:
    part = _part(reader, "queue", "groups", "writers")
    return part or reader.fail(f"expected 'groups', 'writers' or 'changed', found {reader.found}")


def _read_mutex(reader: Reader, sizes: Sizes) -> Quantity:
    part = _part(reader, "mutex", "free", "taken")
    if part is None:
        _due(reader, "by", "'free', 'taken' or 'by'")
        part = Quantity("mutex by", "", thread=_thread(reader, sizes))
    return part


def _read_failures(reader: Reader, sizes: Sizes) -> Quantity:
    return Quantity("failures", "", thread=_thread(reader, sizes) if reader.takes("of") else None)


def _read_room(reader: Reader, sizes: Sizes) -> Quantity:
    if sizes.rooms == 0:
        reader.fail("there is no till, so there are no rooms")
    return Quantity("room", "", number=_number(reader, "room", sizes.rooms, 32))


def _due(reader: Reader, word: str, due: str | None = None) -> None:
    if not reader.takes(word):
        reader.fail(f"expected {due or quoted(word)}, found {reader.found}")


_READERS: Final[dict[str, Callable[[Reader, Sizes], Quantity]]] = {
    "thread": _read_thread,
    "threads": _read_threads,
    "any": _read_any,
    "all": _read_all,
    "no": _read_no,
    "root": _read_root,
    "node": _read_node,
    "queue": _read_queue,
    "mutex": _read_mutex,
    "failures": _read_failures,
    "room": _read_room,
    "rows": lambda reader, sizes: Quantity("rows", ""),
    "wait": lambda reader, sizes: Quantity("wait", ""),
    "stuck": lambda reader, sizes: Quantity("stuck", ""),
}


# ---- What the numbers are.


def _lock(quantity: Quantity, history: History) -> LockState:
    return history.end.locks[quantity.lock]


def _is(quantity: Quantity, history: History) -> int:
    line = _lock(quantity, history).threads[quantity.thread or 0]
    return int(line.standing in quantity.standings and quantity.number in (None, line.ticket))


def _count(quantity: Quantity, history: History) -> int:
    return sum(line.standing in quantity.standings for line in _lock(quantity, history).threads)


def _failures(quantity: Quantity, history: History) -> int:
    lines = _lock(quantity, history).threads
    return sum(line.failures for line in lines) if quantity.thread is None else lines[quantity.thread].failures


def _rows_of(quantity: Quantity, history: History, kinds: Iterable[int]) -> Iterator[int]:
    """The rows of some kinds that are of the quantity's lock, thread and word."""
    for row, (kind, word) in enumerate(zip(history.kinds, history.words)):
        if (
            kind in kinds
            and word // journal.SECOND_WORD == quantity.lock
            and quantity.thread in (None, history.rows[row].thread)
            and quantity.number in (None, word % journal.SECOND_WORD)
        ):
            yield row


def _events(quantity: Quantity, history: History) -> int:
    return sum(1 for _ in _rows_of(quantity, history, quantity.kinds))


def _upgrades(quantity: Quantity, history: History) -> Iterator[tuple[int, str]]:
    """The rows, of those that may end an upgrade, of upgrades, each with the standing of its thread behind it."""
    if orders.UPGRADE + orders.SECOND * quantity.lock not in {row.order for row in history.rows}:
        return
    for row in _rows_of(quantity, history, (journal.FAILED, journal.SWAPPED, journal.DENIED_UPGRADE)):
        if call_of(history.schedule, row) == orders.UPGRADE:
            yield row, history.state(row + 1).locks[quantity.lock].threads[history.rows[row].thread].standing


def _upgrades_to(standing: str) -> Callable[[Quantity, History], int]:
    """The upgrades behind which the thread stands so: it writes where one is granted, and reads on where one is denied,
    by a read or by a failed swap."""
    return lambda quantity, history: sum(after == standing for _, after in _upgrades(quantity, history))


def _late(quantity: Quantity, history: History) -> int:
    """A read-lock by a node above 0 succeeds with the swap of that node; it is late where the root was closed before it."""
    late = 0
    for row in _rows_of(quantity, history, (journal.SWAPPED,)):
        node = history.entry(row).place
        late += (
            node > 0
            and call_of(history.schedule, row) == orders.READ_LOCK + node
            and history.state(row).locks[quantity.lock].root.closed
        )
    return late


def _wait(quantity: Quantity, history: History) -> int:
    """The longest wait for a lock, of either lock."""
    longest = 0
    begun: dict[int, tuple[int, int]] = {}
    for number, row in enumerate(history.rows):
        if history.kinds[number] == journal.BEGUN and (row.order % orders.SECOND == orders.WRITE_LOCK or row.order % orders.SECOND >= orders.READ_LOCK):
            begun[row.thread] = (number, row.order // orders.SECOND)
        if not begun:
            continue
        after = history.state(number + 1)
        for thread, (first, lock) in list(begun.items()):
            longest = max(longest, number - first)
            if after.locks[lock].threads[thread].standing in ("reading", "writing"):
                del begun[thread]
    return longest


_VALUES: Final[dict[str, Callable[[Quantity, History], int]]] = {
    "number": lambda quantity, history: quantity.number or 0,
    "standing": _is,
    "threads": _count,
    "any": lambda quantity, history: int(_count(quantity, history) > 0),
    "all": lambda quantity, history: int(_count(quantity, history) == history.threads),
    "root": lambda quantity, history: _lock(quantity, history).root.count,
    "root direct": lambda quantity, history: _lock(quantity, history).root.direct,
    "root tree": lambda quantity, history: _lock(quantity, history).root.tree or 0,
    "root open": lambda quantity, history: int(not _lock(quantity, history).root.closed),
    "root closed": lambda quantity, history: int(_lock(quantity, history).root.closed),
    "node": lambda quantity, history: _lock(quantity, history).nodes[(quantity.number or 1) - 1],
    "queue groups": lambda quantity, history: _lock(quantity, history).queue.groups,
    "queue writers": lambda quantity, history: _lock(quantity, history).queue.writers,
    "mutex free": lambda quantity, history: int(_lock(quantity, history).queue.mutex is None),
    "mutex taken": lambda quantity, history: int(_lock(quantity, history).queue.mutex is not None),
    "mutex by": lambda quantity, history: int(_lock(quantity, history).queue.mutex == quantity.thread),
    "failures": _failures,
    "room": lambda quantity, history: history.end.rooms[quantity.number or 0],
    "rows": lambda quantity, history: len(history.rows),
    "wait": _wait,
    "stuck": lambda quantity, history: int(is_stuck_after(history)),
    "event": _events,
    "upgrade denied": _upgrades_to("reading"),
    "upgrade granted": _upgrades_to("writing"),
    "late arrival": _late,
}
_FACTS: Final = ("standing", "any", "all", "root open", "root closed", "mutex free", "mutex taken", "mutex by", "stuck")


# ---- How far a fact is from being so.

# From a standing, how many calls or parts of calls it takes to come to another; what is not named takes two.
_STEPS: Final = {
    ("idle", "calling"): 1.0,
    ("calling", "asleep"): 1.0,
    ("calling", "reading"): 1.0,
    ("calling", "writing"): 1.0,
    ("calling", "idle"): 1.0,
    ("asleep", "reading"): 1.0,
    ("asleep", "writing"): 1.0,
    ("reading", "calling"): 1.0,
    ("writing", "calling"): 1.0,
    ("asleep", "idle"): 3.0,
    ("writing", "asleep"): 3.0,
    ("reading", "asleep"): 3.0,
}


def _steps(standing: str, standings: frozenset[str]) -> float:
    return 0.0 if standing in standings else min((_STEPS.get((standing, wanted), 2.0) for wanted in standings), default=4.0)


def _nearness(fact: Quantity, history: History) -> float:
    """How far a fact that is not so is from being so."""
    match fact.what:
        case "standing":
            return max(1.0, _steps(_lock(fact, history).threads[fact.thread or 0].standing, fact.standings))
        case "any":
            return max(1.0, min(_steps(line.standing, fact.standings) for line in _lock(fact, history).threads))
        case "all":
            return max(1.0, sum(_steps(line.standing, fact.standings) for line in _lock(fact, history).threads))
        case "stuck":
            # Everybody asleep, or in a call, at one lock or the other.
            asleep = [any(lock.threads[thread].standing == "asleep" for lock in history.end.locks) for thread in range(history.threads)]
            return 1.0 + asleep.count(False)
        case _:
            return 1.0


# ---- What a condition names.


def quantities(condition: Condition) -> Iterator[Quantity]:
    """The numbers that a condition compares."""
    for comparison in condition.comparisons():
        yield comparison.left
        yield comparison.right


def check(condition: Condition, history: History) -> None:
    """Raises where a condition names a thread, a node or a room that there is not."""
    for quantity in quantities(condition):
        rooms = len(history.state(0).rooms)
        node = quantity.number if quantity.what in ("node", "event", "standing") else None
        for name, number, size in (
            ("thread", quantity.thread, history.threads),
            ("node", node, history.nodes),
            ("room", quantity.number if quantity.what == "room" else None, rooms),
        ):
            if number is not None and number >= size:
                there = f"there {'is' if size == 1 else 'are'} {count_text(size, name)}"
                raise BenchError(f"there is no {name} {number} ('{quantity.text}'): {there}")


def told(condition: Condition, history: History) -> str:
    """What is so in place of a condition that does not hold."""
    said: list[str] = []
    for comparison in condition.comparisons():
        if not comparison.holds(history):
            text = _told(comparison, history)
            if text not in said:
                said.append(text)
    return ", ".join(said)


def _told(comparison: Comparison, history: History) -> str:
    left = comparison.left
    if left.what == "standing":
        line = _lock(left, history).threads[left.thread or 0]
        ticket = "" if line.ticket is None else f" by {line.ticket}"
        return f"thread {left.thread} is {line.standing}{ticket}{' in the second lock' if left.lock else ''}"
    if left.what.startswith(("root ", "mutex ")) and left.is_fact:
        lock, whose = _lock(left, history), "second lock's " if left.lock else ""
        if left.what.startswith("root "):
            return f"the {whose}root is {'closed' if lock.root.closed else 'open'}"
        return f"the {whose}mutex is free" if lock.queue.mutex is None else f"thread {lock.queue.mutex} has the {whose}mutex"
    if left.is_fact:
        return f"{'not ' if left.value(history) == 0 else ''}{left.text}"
    others = "" if comparison.right.what == "number" else f" and {comparison.right.text} is {comparison.right.value(history)}"
    return f"{left.text} is {left.value(history)}{others}"
